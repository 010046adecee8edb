@r@
expression x;
@@
(
f(x);
|
g();
)
@s@
expression r.x;
@@
h(x);
