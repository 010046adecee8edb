@@
expression x;
@@
(
* f(x);
&
* f(a);
)
