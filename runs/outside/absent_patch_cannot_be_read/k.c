void k(void) { g(); }
