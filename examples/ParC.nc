module ParC { uses interface Boot; uses interface Get as G[uint8_t id]; }
implementation {
  default command uint8_t G.get[uint8_t id]() { return id + 6; }
  event void Boot.booted() {
    port_write(0x0130, call G.get[3]());
    port_write(0x0130, call G.get[1]());
  }
}
