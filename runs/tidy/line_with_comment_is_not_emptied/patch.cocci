@@
expression x;
@@
- g(x);
