@exists@
expression l;
@@
- mutex_lock
+ queue_lock
  (l);
  ... when != mutex_lock(l)
- mutex_unlock
+ queue_unlock
  (l);
