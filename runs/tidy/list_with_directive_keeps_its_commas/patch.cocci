@@
expression x;
@@
  f(...,
- x
  )
