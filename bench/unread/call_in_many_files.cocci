@@
expression p, n;
@@
- kzalloc(n, p)
+ kzalloc_new(p, n)
