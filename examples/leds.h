// The lights of the board: one bit each, at one port.
#ifndef LEDS_H
#define LEDS_H

#define LEDS_PORT 0x0120
#define ALL_LEDS 7

#endif
