module LostC { uses interface Boot; }
implementation {
  norace uint16_t x;
  void rx() @atomic_hwevent() @vector(2) { x++; }
  event void Boot.booted() {
    port_write(0x0100, 4);
    x++;
    port_write(0x0120, x);
  }
}
