void f(void)
{
	if (a)
		while (c)
			b();
}
