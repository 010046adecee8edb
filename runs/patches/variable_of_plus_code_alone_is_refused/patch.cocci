@@
expression x;
@@
- f();
+ g(x);
