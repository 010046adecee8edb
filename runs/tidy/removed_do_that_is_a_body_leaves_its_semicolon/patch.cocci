@@
expression x;
@@
- do d(x); while (x);
