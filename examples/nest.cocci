@exists@
type T;
identifier f;
@@
  T f(...)
  {
  <...
  trace_enter(
- )
+ f)
  ;
  ...>
  }
