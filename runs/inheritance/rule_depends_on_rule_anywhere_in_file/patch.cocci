@r1@
expression x;
@@
* f(x);
@r2@
expression r1.x;
@@
* g(x);
@r3 depends on ever r2@
expression r1.x;
@@
* h(x);
