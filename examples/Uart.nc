interface Uart {
  command void enable();
  command void send(uint8_t byte);
  async event void received(uint8_t byte);
}
