@@
expression E, F;
@@
  a(E);
++ p();
- a(F);
