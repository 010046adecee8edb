@r forall@
expression l;
@@
* lock(l);
  ...
* unlock(l);
