@r@
position p;
@@
f@p(1);
@s@
position q != r.p;
expression E;
@@
- f@q(E);
+ g(E);
