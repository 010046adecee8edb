void f(void)
{
	if (p)
		kfree(p);
}
