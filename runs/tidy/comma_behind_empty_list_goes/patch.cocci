@@
expression list es;
@@
- f(es)
+ f(es, 1)
