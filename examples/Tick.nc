interface Tick {
  command void start(uint16_t period);
  async event void tick();
}
