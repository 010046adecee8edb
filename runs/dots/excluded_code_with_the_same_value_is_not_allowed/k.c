void k(void) { f(); g(1); h(1); }
