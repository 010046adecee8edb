void k(void)
{
	a();
	b();
	c();
	d();
	e();
	g();
}
