module OneG { provides interface Get; }
implementation {
  command uint8_t Get.get() { return 4; }
}
