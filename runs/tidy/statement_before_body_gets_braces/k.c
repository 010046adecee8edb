void f(void)
{
	if (a)
		d(a);
}
