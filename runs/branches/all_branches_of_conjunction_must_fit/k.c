void k(void) { g(a); g(b); }
