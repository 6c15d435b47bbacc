#include "mote.h"
module UartC { provides interface Uart; }
implementation {
  command void Uart.enable() {
    atomic port_write(ENABLE, port_read(ENABLE) | 1 << 2);
  }
  command void Uart.send(uint8_t byte) { port_write(SERIAL_DATA, byte); }
  void line() @atomic_hwevent() @vector(2) { signal Uart.received(port_read(SERIAL_DATA)); }
}
