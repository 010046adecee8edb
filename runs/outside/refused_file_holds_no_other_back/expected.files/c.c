void k(void) { g(2); }
