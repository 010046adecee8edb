void f(void)
{
	d(a);
}
