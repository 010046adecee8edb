@@
expression x;
@@
- dump(x);
