configuration ParBareAppC { }
implementation {
  components MainC, ParBareC, OneG;
  ParBareC.Boot -> MainC;
  ParBareC.G[1] -> OneG;
}
