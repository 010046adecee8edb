// After scripts/coccinelle/misc/array_size.
@@
expression E;
@@
(
- sizeof(E) / sizeof(E[0])
+ ARRAY_SIZE(E)
|
- sizeof(E) / sizeof(*E)
+ ARRAY_SIZE(E)
|
- (sizeof(E) / sizeof(E[0]))
+ ARRAY_SIZE(E)
)
