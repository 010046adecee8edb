void k(void) { a(); f(f(x)); }
