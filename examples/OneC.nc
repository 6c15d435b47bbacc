module OneC { uses interface Boot; }
implementation {
  event void Boot.booted() {
    port_write(0x0120, 5);
    port_write(0x0120, 2);
  }
}
