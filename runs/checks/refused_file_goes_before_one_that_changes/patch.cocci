@@
expression E;
@@
- g(E)
+ h(E)
