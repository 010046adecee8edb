void f(void)
{
	if (a)
		while (a)
			d(a);
}
