@r forall@
@@
* a();
  ... when strict
* b();
