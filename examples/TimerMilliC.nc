#include "Timer.h"
generic configuration TimerMilliC() { provides interface Timer<TMilli>; }
implementation {
  components TimerMilliP;
  Timer = TimerMilliP.TimerMilli[unique("TimerMilliC")];
}
