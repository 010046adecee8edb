@@
expression clk, rate;
@@
  clk_set(clk, rate
- )
+ , CLK_DEFAULT)
