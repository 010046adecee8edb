@r forall@
expression x;
@@
  a();
  <...
* f(x);
  ...>
  b();
