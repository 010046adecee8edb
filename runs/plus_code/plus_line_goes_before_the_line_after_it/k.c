void k(void)
{
	a();
	if (x)
		c();
}
