void f(void)
{
	if (p) // c
		kfree(p);
}
