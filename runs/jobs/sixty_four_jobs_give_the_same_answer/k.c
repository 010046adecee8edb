void k(void) { x = f(a) + f(b); }
