void k(void) { f(e); }
