@@
@@
- f(1);

@@
identifier i;
expresion *e;
@@
- i(e);
