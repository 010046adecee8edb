@@
expression x;
@@
- d(x);
+ { e(x); g(x); }
