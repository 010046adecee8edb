@r forall@
@@
* a();
  ...
* b();
