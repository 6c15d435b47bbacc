module AliasC { uses interface Boot; }
implementation {
  uint8_t buf[4];
  uint8_t *p;
  void rx() @atomic_hwevent() @vector(2) { *p = port_read(0x0130); }
  event void Boot.booted() {
    atomic p = &buf[0];
    port_write(0x0100, 4);
    port_write(0x0120, buf[0]);
  }
}
