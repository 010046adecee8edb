void f(void)
{
	p = dev_alloc(d, 10);
}
