// After scripts/coccinelle/api/alloc: a product is passed as two arguments.
@@
expression n, E, flags;
@@
(
- kzalloc(n * sizeof(E), flags)
+ kcalloc(n, sizeof(E), flags)
|
- kzalloc(sizeof(E) * n, flags)
+ kcalloc(n, sizeof(E), flags)
|
- kmalloc(n * sizeof(E), flags)
+ kmalloc_array(n, sizeof(E), flags)
|
- kmalloc(sizeof(E) * n, flags)
+ kmalloc_array(n, sizeof(E), flags)
)
