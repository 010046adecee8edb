@@
typ t;
struct s *s;
identifer i;
@@
- f(t, e == 0);
