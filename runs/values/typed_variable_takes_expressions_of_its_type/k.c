struct s { int a; struct s *n; };
void k(struct s *p, int q) { f(p); f(q); f(p->n); f(u); }
