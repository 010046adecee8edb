@@
expression x;
@@
- ;
