@r@
expression x;
@@
(
* f(x);
|
* f(1);
)
