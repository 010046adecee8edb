// Any pointer or array.
@@
expression *p;
expression size;
@@
- memset
+ set_bytes
  (p, 0, size)
