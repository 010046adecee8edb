@@
expression E;
@@
  g(\(
  E
  \&
- a
+ z
  \))
