@r1@
expression a, b;
@@
* set(a, b);
@r2@
expression r1.a, r1.b;
@@
* use(a, b);
