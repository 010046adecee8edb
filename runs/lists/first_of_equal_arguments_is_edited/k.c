void k(void) { f(b, a, a); }
