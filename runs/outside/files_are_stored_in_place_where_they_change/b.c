void k(void) { h(); }
