module BC { provides interface Init; }
implementation {
  command error_t Init.init() {
    port_write(0x0130, 2);
    return FAIL;
  }
}
