@r1@
expression x;
@@
- set(x);
+ put(x);

@r2@
expression r1.x;
@@
- use(x);
+ used(x);
