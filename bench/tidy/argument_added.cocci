@@
expression E;
@@
  msleep(E
+ , 0
  )
