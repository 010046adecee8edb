// A lock, and each unlock of the same lock that every way leads to.
@@
expression l;
@@
- mutex_lock(l);
+ guard_lock(l);
  ... when != mutex_lock(l)
- mutex_unlock(l);
+ guard_unlock(l);
