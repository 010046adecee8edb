// After scripts/coccinelle/misc: a test of a bit that lacks brackets.
@@
expression E;
constant C;
@@
- !E & C
+ !(E & C)
