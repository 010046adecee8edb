@@
expression E;
@@
* (t)(E)
