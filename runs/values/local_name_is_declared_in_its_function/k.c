int a;
int *b;
void k(int c, int d[])
{
	int e;
	f(a, b);
	f(c, b);
	f(e, d);
	f(e, a);
	f(b, b);
}
