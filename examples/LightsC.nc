// All lights on, and off again.
#include "leds.h"

module LightsC {
  uses interface Boot;
}
implementation {
  event void Boot.booted() {
    port_write(LEDS_PORT, ALL_LEDS);
    port_write(LEDS_PORT, 0);
  }
}
