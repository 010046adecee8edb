void k(void) { f(2); }
