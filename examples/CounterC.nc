// A count from 0 to 3 on the lights; down, where COUNT_DOWN is defined.
#include "leds.h"

#define SHOW(count) port_write(LEDS_PORT, count)

module CounterC {
  uses interface Boot;
}
implementation {
  event void Boot.booted() {
#ifdef COUNT_DOWN
    SHOW(3); SHOW(2); SHOW(1); SHOW(0);
#else
    SHOW(0); SHOW(1); SHOW(2); SHOW(3);
#endif
  }
}
