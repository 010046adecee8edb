void f(void)
{
	*p = kmalloc(10, K);
	memset(*p, 0, 10);
}
