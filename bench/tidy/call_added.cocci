@@
expression E;
@@
  kfree(E);
+ E = NULL;
