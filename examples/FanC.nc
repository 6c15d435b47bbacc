module FanC { uses interface Boot; uses interface Init; }
implementation {
  event void Boot.booted() {
    port_write(0x0130, call Init.init());
  }
}
