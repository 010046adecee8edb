@@
expression x;
@@
- d(x);

@@
expression x;
@@
- if (x) ;
+ g(x);
