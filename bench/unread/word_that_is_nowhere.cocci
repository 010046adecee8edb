@@
expression x;
@@
- no_such_function_here(x);
+ other(x);
