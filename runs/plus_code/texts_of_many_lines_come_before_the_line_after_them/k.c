void k(int x)
{
	a();
	if (x)
		c(1);
	else
		c(2);
}
