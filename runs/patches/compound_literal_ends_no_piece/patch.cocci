@@
@@
- x = (struct s){ 1 };
- return ...;
