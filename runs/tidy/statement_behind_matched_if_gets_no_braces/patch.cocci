@@
expression x;
@@
  if (!x) return;
+ init(x);
