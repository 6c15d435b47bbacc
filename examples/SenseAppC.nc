configuration SenseAppC { }
implementation {
  components MainC, SenseC, DemoSensorC;
  components new TimerMilliC() as Timer;
  SenseC.Boot -> MainC;
  SenseC.Timer -> Timer;
  SenseC.Read -> DemoSensorC;
}
