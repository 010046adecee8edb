// A field, by the call that reads it.
@@
expression E;
@@
- E->dev.of_node
+ dev_of_node(&E->dev)
