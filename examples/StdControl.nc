interface StdControl {
  command error_t start();
  command error_t stop();
}
