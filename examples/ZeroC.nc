module ZeroC { uses interface Boot; }
implementation {
  event void Boot.booted() {
    uint16_t z;
    z = 7 / z;
  }
}
