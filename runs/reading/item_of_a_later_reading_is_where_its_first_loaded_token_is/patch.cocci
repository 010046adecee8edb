@@
@@
- int
+ asm("x")
  k(void)
  {
  ...
  }
+ asm("y");

@@
@@
- b();
+ c();
