void k(void) { if (!p) { } }
