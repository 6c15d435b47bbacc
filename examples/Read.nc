interface Read<val> {
  command error_t read();
  event void readDone(error_t result, val data);
}
