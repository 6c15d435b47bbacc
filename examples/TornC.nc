module TornC { uses interface Boot; }
implementation {
  uint32_t t;
  void rx() @atomic_hwevent() @vector(2) { t = port_read(0x0130); }
  event void Boot.booted() {
    uint16_t h;
    port_write(0x0100, 4);
    h = t >> 16;
    port_write(0x0120, h);
  }
}
