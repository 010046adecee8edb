void k(void) { f(1); f(2); g(1); h(2); }
