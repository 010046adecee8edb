@@
expression E;
@@
  f(
- E,
  ...)
