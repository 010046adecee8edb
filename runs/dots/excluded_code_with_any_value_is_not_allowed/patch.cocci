@r forall@
expression y;
@@
* f();
  ... when != g(y)
* h();
