// After scripts/coccinelle/misc/returnvar: the last call's result is returned.
@@
identifier ret;
expression E;
@@
- ret = E;
- if (ret)
-   return ret;
- return 0;
+ return E;
