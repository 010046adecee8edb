@@
expression x;
@@
- while (x) d(x);
