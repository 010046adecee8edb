@@
expression x;
@@
- kfree_sensitive(x);
+ kfree_secret(x);
