void k(int x)
{
	a();
	if (x)
		c();
}
