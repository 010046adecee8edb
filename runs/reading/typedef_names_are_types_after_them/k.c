void k(void) { t * p + q; }
typedef int t;
void k(void) { t * p + q; }
typedef int (*f)(int), *const g, a[3], (b), h(void);
void k(void) { f * x + y; }
void k(void) { g * x + y; }
void k(void) { a * x + y; }
void k(void) { b * x + y; }
void k(void) { h * x + y; }
typedef struct { int u; } v;
void k(void) { v * x + y; }
void k(void) { u * x + y; }
typedef int w = ;
void k(void) { w * x + y; }
int c = ;
#if 0
int d = ;
#else
int e;
#endif
