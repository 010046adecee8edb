@@
expression E;
@@
* E == NULL
