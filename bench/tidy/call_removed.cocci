@@
expression E;
@@
- kfree(E);
