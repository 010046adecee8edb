void k(void) { if (a) b(); }
