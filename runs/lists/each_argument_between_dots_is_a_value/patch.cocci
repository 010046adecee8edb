@@
expression E;
@@
* f(..., E, ...)
