@@
expression E;
@@
- mutex_unlock(E);
+ lockdep_assert_held(E);
+ mutex_unlock(E);
