@@
expression E;
@@
* f(E)
