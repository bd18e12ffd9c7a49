fn f()
{ // x
    g(2) }
