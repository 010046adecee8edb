void k(void) { g(1); }
