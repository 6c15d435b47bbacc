#include "mote.h"
module SensorC { provides interface Sample; }
implementation {
  command void Sample.enable() {
    atomic port_write(ENABLE, port_read(ENABLE) | 1 << 4);
  }
  async command void Sample.ask() { port_write(SENSOR_ASK, 1); }
  void line() @atomic_hwevent() @vector(4) { signal Sample.done(port_read(SENSOR_VALUE)); }
}
