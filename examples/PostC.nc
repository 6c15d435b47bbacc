module PostC { uses interface Boot; }
implementation {
  uint8_t again;
  task void t() {
    port_write(0x0130, 9);
    if (!again) { again = 1; port_write(0x0130, post t()); }
  }
  void rx() @atomic_hwevent() @vector(2) {
    port_write(0x0130, post t());
    port_write(0x0130, post t());
  }
  event void Boot.booted() {
    port_write(0x0100, 4);
    port_write(0x0130, post t());
    port_write(0x0130, post t());
  }
}
