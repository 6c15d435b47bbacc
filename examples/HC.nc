module HC { uses interface Go; }
implementation {
  void rx() @atomic_hwevent() @vector(2) { call Go.go(); }
}
