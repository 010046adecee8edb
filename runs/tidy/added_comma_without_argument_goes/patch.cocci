@@
expression x;
@@
  f(...
+ , 1
  )
