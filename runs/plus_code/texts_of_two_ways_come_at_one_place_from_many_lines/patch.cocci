@r exists@
expression y;
@@
  a();
++ b(y);
  ...
  c(y);
