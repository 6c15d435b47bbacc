#include "mote.h"
// Packets of one byte: the upper byte of a word on the air is the address, 255 for all.
module RadioC {
  provides interface StdControl;
  provides interface RadioSend;
  provides interface RadioReceive;
}
implementation {
  uint16_t packet;
  bool sending;

  command error_t StdControl.start() {
    port_write(RADIO_ADDRESS, OWN_ADDRESS);
    port_write(RADIO_ON, 1);
    atomic port_write(ENABLE, port_read(ENABLE) | 1 << 3);
    return SUCCESS;
  }
  command error_t StdControl.stop() {
    port_write(RADIO_ON, 0);
    return SUCCESS;
  }
  task void sent() {
    sending = FALSE;
    signal RadioSend.sendDone(SUCCESS);
  }
  command error_t RadioSend.send(uint8_t to, uint8_t value) {
    if (sending) return EBUSY;
    sending = TRUE;
    port_write(RADIO_DATA, (uint16_t)to << 8 | value);
    return post sent();
  }
  task void received() {
    uint16_t word;
    atomic word = packet;
    signal RadioReceive.receive(word % 256);
  }
  void line() @atomic_hwevent() @vector(3) {
    packet = port_read(RADIO_DATA);
    post received();
  }
}
