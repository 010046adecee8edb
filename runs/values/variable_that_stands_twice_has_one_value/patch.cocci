@@
expression E;
@@
- f(E, E)
+ g(E)
