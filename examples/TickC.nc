#include "mote.h"
module TickC { provides interface Tick; }
implementation {
  command void Tick.start(uint16_t period) {
    atomic {
      port_write(TIMER_PERIOD, period);
      port_write(TIMER_ON, 1);
      port_write(ENABLE, port_read(ENABLE) | 1 << 1);
    }
  }
  void line() @atomic_hwevent() @vector(1) { signal Tick.tick(); }
}
