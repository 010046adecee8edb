@@
identifier z;
@@
- b(...);
