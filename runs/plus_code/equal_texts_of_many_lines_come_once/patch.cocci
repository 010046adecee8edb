@r exists@
expression y;
@@
  a();
++ b();
  ...
  c(y);
