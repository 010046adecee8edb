@r forall@
expression l, m;
@@
* lock(l);
  ...
* unlock(m);
