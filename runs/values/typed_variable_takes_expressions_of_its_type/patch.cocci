@@
struct s *x;
@@
* f(x)
