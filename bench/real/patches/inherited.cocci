// After the change from from_timer: the callbacks that timer_setup names, and then from_timer in them.
@setup@
expression t, flags;
identifier f;
@@
  timer_setup(t, f, flags)

@@
type T;
identifier setup.f;
expression v, w, m;
@@
  T f(...)
  {
  <...
- from_timer(v, w, m)
+ timer_container_of(v, w, m)
  ...>
  }
