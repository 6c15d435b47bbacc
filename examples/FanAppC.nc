configuration FanAppC { }
implementation {
  components MainC, FanC, AC, BC;
  FanC.Boot -> MainC;
  FanC.Init -> AC;
  FanC.Init -> AC;
  FanC.Init -> BC;
}
