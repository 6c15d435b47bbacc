#include "mote.h"
// Shows on the lamps the mean of the last four samples, in steps of 128.
module MeterC {
  uses interface Boot;
  uses interface Tick;
  uses interface Sample;
}
implementation {
  enum { DEPTH = 4 };
  uint16_t samples[DEPTH];
  uint8_t next;

  uint16_t mean() {
    uint32_t sum = 0;
    uint8_t i;
    for (i = 0; i < DEPTH; i++) sum += samples[i];
    return sum / DEPTH;
  }

  event void Boot.booted() {
    call Sample.enable();
    call Tick.start(250);
  }
  async event void Tick.tick() { call Sample.ask(); }
  async event void Sample.done(uint16_t value) {
    samples[next] = value;
    next = (next + 1) % DEPTH;
    port_write(LAMPS, mean() / 128);
  }
}
