@@
expression x;
@@
  if (x)
+ e(x);
  b();
