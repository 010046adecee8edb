void k(void)
{
	a();
}
void l(void)
{
	b();
}
