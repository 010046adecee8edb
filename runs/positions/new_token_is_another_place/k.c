void k(void) { a(); f(); }
