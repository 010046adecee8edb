@@
expression list es;
expression E;
@@
- f(es, E)
+ g(E, es)
