@@
expression p, size, flags;
identifier field;
@@
  p =
- kmalloc
+ kzalloc
  (size, flags);
  ... when != p->field
- memset(p, 0, size);
