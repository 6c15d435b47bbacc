interface Leds {
  async command void led0Toggle();
  async command void led1Toggle();
  async command void led2Toggle();
}
