interface Timer<tag> { command void startPeriodic(uint32_t dt); event void fired(); }
