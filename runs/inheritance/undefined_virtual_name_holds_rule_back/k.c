void k(void) { a(); }
