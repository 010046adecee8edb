void k(void) { g(a); }
