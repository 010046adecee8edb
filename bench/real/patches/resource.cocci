// After scripts/coccinelle/api/devm_platform_ioremap_resource: two calls become one.
@@
expression e1, e2, e3, e4, n;
@@
- e1 = platform_get_resource(e2, IORESOURCE_MEM, n);
- e3 = devm_ioremap_resource(e4, e1);
+ e3 = devm_platform_ioremap_resource(e2, n);
