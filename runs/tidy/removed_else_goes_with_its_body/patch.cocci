@@
expression x;
@@
  if (x) b();
- else d(x);
