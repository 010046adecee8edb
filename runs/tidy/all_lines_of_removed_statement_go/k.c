void f(void)
{
	g(
		1);
}
