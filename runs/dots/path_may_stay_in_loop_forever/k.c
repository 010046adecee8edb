void k(void) { a(); while (1) g(); b(); }
