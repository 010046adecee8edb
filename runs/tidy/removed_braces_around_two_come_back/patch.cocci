@@
expression x;
@@
  if (x)
- {
  ...
- }
