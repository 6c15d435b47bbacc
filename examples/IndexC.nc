module IndexC { uses interface Boot; }
implementation {
  uint8_t a[2];
  event void Boot.booted() {
    uint8_t i = 2;
    a[i] = 1;
  }
}
