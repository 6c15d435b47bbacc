configuration HCAppC { }
implementation {
  components HC, SC;
  HC.Go -> SC;
}
