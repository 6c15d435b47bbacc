interface RadioSend {
  command error_t send(uint8_t to, uint8_t value);
  event void sendDone(error_t result);
}
