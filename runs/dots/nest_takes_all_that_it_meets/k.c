void k(void) { a(); f(1); g(); f(2); b(); }
