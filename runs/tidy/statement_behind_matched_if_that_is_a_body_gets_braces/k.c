void f(void)
{
	while (c)
		if (!a)
			return;
}
