@@
static int x;
@@
f(x);
