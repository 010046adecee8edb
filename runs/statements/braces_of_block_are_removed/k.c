void k(void) { a(); { b(); } }
