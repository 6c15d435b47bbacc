module NestC { uses interface Boot; }
implementation {
  void put(uint16_t v) {
    atomic {
      port_write(0x0130, v);
      atomic { port_write(0x0130, v + 1); }
      port_write(0x0130, v + 2);
    }
  }
  void rx() @atomic_hwevent() @vector(2) { put(20); }
  event void Boot.booted() { port_write(0x0100, 4); put(10); }
}
