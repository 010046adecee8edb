@@
expression x;
@@
  if (x)
- {
  b();
  }
