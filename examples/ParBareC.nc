module ParBareC { uses interface Boot; uses interface Get as G[uint8_t id]; }
implementation {
  event void Boot.booted() {
    port_write(0x0130, call G.get[3]());
    port_write(0x0130, call G.get[1]());
  }
}
