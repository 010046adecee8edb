void k(void) { a(); if (c) return; b(); }
