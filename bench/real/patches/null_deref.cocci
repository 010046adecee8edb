// After scripts/coccinelle/null/deref_null: a pointer that is known to be NULL is followed.
@exists@
expression E, x;
identifier f;
@@
  if (!E) {
  ... when != E
- x = E->f;
+ x = followed(E->f);
  ...
  }
