@leak@
expression buf, size, E;
@@
* buf = get_buffer(size);
  ... when != put_buffer(buf)
* return E;
