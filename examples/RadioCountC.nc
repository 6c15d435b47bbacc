#include "Timer.h"
#include "mote.h"
// Sends a counter to all motes at each firing of the timer, and shows the low bits of what it receives on the lamps.
module RadioCountC {
  uses interface Boot;
  uses interface Timer<TMilli>;
  uses interface StdControl as RadioControl;
  uses interface RadioSend;
  uses interface RadioReceive;
}
implementation {
  enum { PERIOD = 250, ALL = 255 };
  uint8_t counter;
  bool locked;

  event void Boot.booted() {
    call RadioControl.start();
    call Timer.startPeriodic(PERIOD);
  }
  event void Timer.fired() {
    counter++;
    if (locked) return;
    if (call RadioSend.send(ALL, counter) == SUCCESS) locked = TRUE;
  }
  event void RadioSend.sendDone(error_t result) { locked = FALSE; }
  event void RadioReceive.receive(uint8_t value) { port_write(LAMPS, value & 7); }
}
