@r forall@
expression x;
@@
* f();
  ... when != g(x)
* h(x);
