@@
local idexpression x;
expression *y;
@@
- f
+ g
  (x, y);
