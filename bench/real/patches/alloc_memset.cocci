// After scripts/coccinelle/api/alloc: an allocation that is cleared behind it.
@@
expression x, E1, E2;
@@
(
- x = kmalloc(E1, E2);
+ x = kzalloc(E1, E2);
|
- x = devm_kmalloc(E1, E2);
+ x = devm_kzalloc(E1, E2);
)
  ... when != x
- memset(x, 0, E1);
