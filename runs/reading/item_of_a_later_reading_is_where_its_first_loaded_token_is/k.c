int k(void)
{
	a();
}
void l(void)
{
	b();
}
