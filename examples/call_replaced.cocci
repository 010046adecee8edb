@@
expression dev, size;
@@
- devm_alloc
+ devm_zeroed
  (dev, size)
