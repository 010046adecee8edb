@first@
expression E;
statement S;
@@
- g(E);
+ h(E);
  S
- k(E);

@second@
expression first.E;
@@
- m(E);
+ n(E);
