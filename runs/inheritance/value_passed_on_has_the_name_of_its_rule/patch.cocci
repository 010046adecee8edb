@r1@
expression x;
@@
* f(x);

@r2@
expression r1.x;
@@
* g(x);

@r3@
expression r2.x;
@@
* h(x);
