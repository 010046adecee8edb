int k(void) { a(); }
