@set@
identifier handler;
@@
  set_handler(handler);

// The function itself.
@exists@
identifier set.handler;
parameter list params;
@@
  void handler(params
- )
+ , struct context *c)
  { ... }

// Its calls.
@@
identifier set.handler;
expression list args;
@@
  handler(args
- )
+ , NULL)
