void f(void)
{
	d(a);
	b();
}
