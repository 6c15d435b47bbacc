module LedsC { provides interface Leds; }
implementation {
  uint16_t on;
  async command void Leds.led0Toggle() { atomic { on = on ^ 1; port_write(0x0120, on); } }
  async command void Leds.led1Toggle() { atomic { on = on ^ 2; port_write(0x0120, on); } }
  async command void Leds.led2Toggle() { atomic { on = on ^ 4; port_write(0x0120, on); } }
}
