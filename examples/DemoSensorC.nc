#include "mote.h"
// Asks the sensor for a sample; a task hands it on.
module DemoSensorC { provides interface Read<uint16_t>; }
implementation {
  uint16_t sample;
  bool busy;

  task void hand_on() {
    uint16_t value;
    atomic value = sample;
    busy = FALSE;
    signal Read.readDone(SUCCESS, value);
  }
  command error_t Read.read() {
    if (busy) return EBUSY;
    busy = TRUE;
    atomic port_write(ENABLE, port_read(ENABLE) | 1 << 4);
    port_write(SENSOR_ASK, 1);
    return SUCCESS;
  }
  void line() @atomic_hwevent() @vector(4) {
    sample = port_read(SENSOR_VALUE);
    post hand_on();
  }
}
