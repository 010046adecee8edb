@@
expression x;
@@
  if (x)
- d(x); else
  b();
