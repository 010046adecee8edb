// One of the calls that take NULL.
@@
expression x;
@@
- if (x)
-   kfree(x);
+ kfree(x);
