void k(void) { if (!p) f(); }
