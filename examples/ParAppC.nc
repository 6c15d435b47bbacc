configuration ParAppC { }
implementation {
  components MainC, ParC, OneG;
  ParC.Boot -> MainC;
  ParC.G[1] -> OneG;
}
