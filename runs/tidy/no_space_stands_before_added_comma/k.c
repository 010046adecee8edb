void f(void)
{
	f(d, 10);
}
