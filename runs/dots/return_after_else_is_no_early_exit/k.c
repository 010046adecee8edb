void k(void)
{
	a();
	if (c)
		d();
	else
		return;
	b();
}
void l(void)
{
	a();
	if (c)
		return;
	b();
}
