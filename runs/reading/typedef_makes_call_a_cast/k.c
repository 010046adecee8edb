void k(void) { x = (t)(y); }
typedef int t;
void l(void) { x = (t)(y); }
