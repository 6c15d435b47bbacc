#include "Timer.h"
module TimerP {
  provides interface Init;
  provides interface Timer<TMilli> as Timer[uint8_t id];
}
implementation {
  enum { N = uniqueCount("TimerMilliC") };
  uint32_t period[N];
  uint32_t left[N];
  command error_t Init.init() {
    port_write(0x012A, 250);
    port_write(0x0128, 1);
    port_write(0x0100, 2);
    return SUCCESS;
  }
  task void tick() {
    uint8_t i;
    for (i = 0; i < N; i++) {
      if (period[i] == 0) continue;
      left[i] -= 250;
      if (left[i] == 0) { left[i] = period[i]; signal Timer.fired[i](); }
    }
  }
  void line() @atomic_hwevent() @C() @spontaneous() @vector(1) { post tick(); }
  command void Timer.startPeriodic[uint8_t id](uint32_t dt) { period[id] = dt; left[id] = dt; }
  default event void Timer.fired[uint8_t id]() { }
}
