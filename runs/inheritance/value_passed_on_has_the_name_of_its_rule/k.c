void k(void) { f(a); g(a); h(a); h(b); }
