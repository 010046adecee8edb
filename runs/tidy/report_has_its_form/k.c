void f(void)
{
	g(1);
	h();
}
