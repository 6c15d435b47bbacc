configuration MeterAppC { }
implementation {
  components MainC, MeterC, TickC, SensorC;
  MeterC.Boot -> MainC;
  MeterC.Tick -> TickC;
  MeterC.Sample -> SensorC;
}
