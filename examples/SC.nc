module SC { provides interface Go; }
implementation {
  uint8_t count;
  command void Go.go() { count++; }
}
