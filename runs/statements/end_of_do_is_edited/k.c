void k(void) { do b(); while (a); }
