@r1@
expression E;
@@
 lock(E);
@r2@
expression r1.E;
@@
- use(E);
+ used(E);
