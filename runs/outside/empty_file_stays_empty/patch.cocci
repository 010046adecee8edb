@@
expression x, E1, E2;
@@
- x = kmalloc(E1, E2);
+ x = kzalloc(E1, E2);
  ...
- memset(x, 0, E1);
