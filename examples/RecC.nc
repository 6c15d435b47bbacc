module RecC { uses interface Boot; }
implementation {
  void f();
  void g() { f(); }
  void f() { g(); }
  event void Boot.booted() { f(); }
}
