void k(void)
{
	a();
	{
		b();
	}
}
MACRO(x)
{
	c();
}
