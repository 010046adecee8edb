virtual report, fix

@depends on report@
expression to, from;
@@
* strcpy(to, from)

@depends on fix@
expression to, from;
@@
- strcpy
+ strscpy
  (to, from
- )
+ , sizeof(to))
