// An error message that the called function prints itself goes.
@@
expression e1, e2, e3;
@@
  e1 = devm_ioremap_resource(e2, e3);
- if (IS_ERR(e1)) {
-   dev_err(...);
-   return PTR_ERR(e1);
- }
+ if (IS_ERR(e1))
+   return PTR_ERR(e1);
