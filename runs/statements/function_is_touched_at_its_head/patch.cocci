@r@
identifier f;
@@
* int f(void)
  {
  ...
  }
