@@
expression x;
expression list es;
@@
- f(x, es)
+ g(1, es)
