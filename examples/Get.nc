interface Get { command uint8_t get(); }
