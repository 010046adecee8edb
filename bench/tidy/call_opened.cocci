@@
expression n, d;
@@
- DIV_ROUND_UP(n, d)
+ n / d
