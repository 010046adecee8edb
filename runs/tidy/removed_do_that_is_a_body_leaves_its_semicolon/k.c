void f(void)
{
	if (a)
		do d(a); while (a);
}
