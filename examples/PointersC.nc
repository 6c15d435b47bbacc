module PointersC { uses interface Boot; }
implementation {
  uint8_t a[2];
  uint8_t b[2];
  uint8_t *p;
  event void Boot.booted() {
    p = b;
    p = a;
    p[2] = 5;
    port_write(0x0130, b[0]);
    p[4] = 1;
    port_write(0x0130, 6);
  }
}
