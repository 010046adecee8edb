void k(void) { g(g(1)); }
