@@
expression x;
@@
- d(x);
+ if (x) e(x);
