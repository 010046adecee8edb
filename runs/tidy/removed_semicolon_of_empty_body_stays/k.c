void f(void)
{
	while (a)
		;
}
