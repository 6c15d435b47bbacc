// Keeps the bytes of the serial line in a ring; a task sends them back.
module EchoC {
  uses interface Boot;
  uses interface Uart;
}
implementation {
  enum { ROOM = 8 };
  uint8_t ring[ROOM];
  uint8_t first;
  uint8_t count;

  task void echo() {
    uint8_t byte;
    uint8_t left;
    atomic {
      byte = ring[first];
      first = (first + 1) % ROOM;
      left = --count;
    }
    call Uart.send(byte);
    if (left > 0) post echo();
  }
  event void Boot.booted() { call Uart.enable(); }
  async event void Uart.received(uint8_t byte) {
    if (count == ROOM) return;
    ring[(first + count) % ROOM] = byte;
    count++;
    post echo();
  }
}
