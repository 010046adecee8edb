// A statement removed, whatever its arguments.
@@
@@
- dev_dbg(...);
