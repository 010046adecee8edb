@r1@
position p;
@@
f@p();
@r2@
@@
- a();
+ b();
@r3@
position r1.p;
@@
* f@p();
