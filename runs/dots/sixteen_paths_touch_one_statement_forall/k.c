void k(void) { a(); if (c) p(); if (c) p(); if (c) p(); if (c) p(); b(); }
