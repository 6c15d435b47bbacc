interface Sample {
  command void enable();
  async command void ask();
  async event void done(uint16_t value);
}
