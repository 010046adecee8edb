// As inherited.cocci; `exists` lets the nest pass loops.
@setup@
expression t, flags;
identifier f;
@@
  timer_setup(t, f, flags)

@exists@
type T;
identifier setup.f;
expression v, w, m;
@@
  T f(...)
  {
  <...
- from_timer(v, w, m)
+ timer_container_of(v, w, m)
  ...>
  }
