// A clock's rate is read anew where the same function has read it before: the first reading keeps its name.
@first exists@
type T;
identifier f;
expression c, x;
position p;
@@
  T f(...)
  {
  ... when != clk_get_rate(c)
  x = clk_get_rate@p(c);
  ... when any
  }

@exists@
position q != first.p;
expression first.c;
@@
- clk_get_rate@q(c)
+ clk_get_rate_again(c)
