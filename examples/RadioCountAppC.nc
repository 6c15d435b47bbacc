configuration RadioCountAppC { }
implementation {
  components MainC, RadioCountC, RadioC;
  components new TimerMilliC() as Timer;
  RadioCountC.Boot -> MainC;
  RadioCountC.Timer -> Timer;
  RadioCountC.RadioControl -> RadioC;
  RadioCountC.RadioSend -> RadioC;
  RadioCountC.RadioReceive -> RadioC;
}
