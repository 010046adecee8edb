void k(void) { f(f(x)); }
