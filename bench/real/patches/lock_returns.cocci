// After scripts/coccinelle/locks: a value is returned while a lock is held that no way from the lock to there has released.
@exists@
expression l, E;
@@
  spin_lock_irqsave(l, ...);
  ... when != spin_unlock_irqrestore(l, ...)
- return E;
+ return held(E);
