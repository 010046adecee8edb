void k(void) { f(a, a); f(a, b); }
