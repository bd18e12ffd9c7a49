fn f() { // x
  g(1)
}
