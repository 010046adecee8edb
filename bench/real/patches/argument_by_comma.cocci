// An argument added behind the second, by plus code inside a call.
@@
expression E, n;
@@
  platform_get_irq(E,
- n
+ n, 0
  )
