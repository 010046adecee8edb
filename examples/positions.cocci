@held exists@
expression l, x;
position p;
@@
  lock(l);
  ... when != unlock(l)
  release(x)@p;

@exists@
expression x;
position held.p;
@@
  irq_off();
  ... when != irq_on()
- release
+ release_fast
  (x)@p;
