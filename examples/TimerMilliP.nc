#include "Timer.h"
configuration TimerMilliP { provides interface Timer<TMilli> as TimerMilli[uint8_t id]; }
implementation {
  components MainC, TimerP;
  MainC.SoftwareInit -> TimerP;
  TimerMilli = TimerP;
}
