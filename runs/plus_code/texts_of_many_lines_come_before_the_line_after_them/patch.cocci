@r exists@
expression y;
@@
++ b(y);
  a();
  ...
  c(y);
