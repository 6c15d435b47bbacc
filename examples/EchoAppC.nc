configuration EchoAppC { }
implementation {
  components MainC, EchoC, UartC;
  EchoC.Boot -> MainC;
  EchoC.Uart -> UartC;
}
