void k(void) { f(c, b, c); }
