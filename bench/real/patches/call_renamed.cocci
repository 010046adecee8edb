// A call renamed, its last argument gone.
@@
expression dev, size;
@@
- devm_kzalloc(dev, size, GFP_KERNEL)
+ devm_kzalloc_wait(dev, size)
