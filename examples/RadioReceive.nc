interface RadioReceive {
  event void receive(uint8_t value);
}
