void f(void)
{
	b();
}
