#include "Timer.h"
#include "mote.h"
// Samples the sensor at each firing of the timer, and shows the upper bits on the lamps.
module SenseC {
  uses interface Boot;
  uses interface Timer<TMilli>;
  uses interface Read<uint16_t>;
}
implementation {
  enum { PERIOD = 500, STEP = 128 };

  event void Boot.booted() { call Timer.startPeriodic(PERIOD); }
  event void Timer.fired() { call Read.read(); }
  event void Read.readDone(error_t result, uint16_t data) {
    if (result == SUCCESS) port_write(LAMPS, data / STEP);
  }
}
