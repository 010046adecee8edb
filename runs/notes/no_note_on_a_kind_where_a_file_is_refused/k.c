void k(void) { f(1); }
