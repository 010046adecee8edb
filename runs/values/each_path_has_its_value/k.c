void k(void) { lock(a); if (c) unlock(a); else unlock(b); }
