@@
expression d, n;
@@
  f(d, n
+ , GFP
  )
