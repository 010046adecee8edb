void k(void) { f(a, b, c); f(a); }
