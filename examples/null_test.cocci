@@
expression p;
@@
  if (p == NULL)
  return
- 0
+ -ENODEV
  ;
