// The ports of the board: lamps, timer, serial line, radio and sensor in slots 0 to 4.
#define ENABLE 0x0100
#define LAMPS 0x0120
#define TIMER_ON 0x0128
#define TIMER_PERIOD 0x012A
#define SERIAL_DATA 0x0130
#define RADIO_DATA 0x0138
#define RADIO_ON 0x013A
#define RADIO_ADDRESS 0x013E
#define OWN_ADDRESS 7
#define SENSOR_VALUE 0x0140
#define SENSOR_ASK 0x0142
