void k(void) { x = a-b; }
