module AC { provides interface Init; }
implementation {
  command error_t Init.init() {
    port_write(0x0130, 1);
    return SUCCESS;
  }
}
