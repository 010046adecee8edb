@r exists@
expression E1, E2, E3;
@@
* lock(E1);
  ...
* x = p(E1);
  ...
* E3 = g(E1, E2);
