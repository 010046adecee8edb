void k(void) { set(1, 2); set(3, 4); use(1, 4); use(3, 4); }
