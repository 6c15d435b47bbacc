module NumbersC { uses interface Boot; }
implementation {
  event void Boot.booted() {
    uint8_t a = 200;
    uint8_t b = 100;
    port_write(0x0130, a + b);
    port_write(0x0130, (uint8_t)(a + b));
    port_write(0x0130, 1 << 15);
    port_write(0x0130, 1 << 16);
    port_write(0x0130, -1 >> 20);
    port_write(0x0130, -1 < 1u);
    port_write(0x0130, 40000 + 30000);
    port_write(0x0130, -7 / 2);
    port_write(0x0130, -7 % 2);
  }
}
