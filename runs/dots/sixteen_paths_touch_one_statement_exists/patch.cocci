@r exists@
@@
* a();
  ...
* b();
