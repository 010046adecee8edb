void k(void) { f(); k(); h(); }
void l(void) { f(); g(1); h(); }
