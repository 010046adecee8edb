void k(void) { f(a); f(b); }
