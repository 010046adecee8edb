@r1@
position p;
@@
f@p();
@r2@
@@
- f();
+ f();
@r3@
position r1.p;
@@
* f@p();
