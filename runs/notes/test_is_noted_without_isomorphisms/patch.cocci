@@
expression E;
@@
- if (E == NULL) { }
