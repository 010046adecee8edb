void f(void)
{
	p->q = kmalloc(10, K);
	memset(p->q, 0, 10);
	return 0;
}
