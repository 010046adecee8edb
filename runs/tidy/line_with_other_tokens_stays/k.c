void f(void)
{
	a(); b(1,
		2); c();
}
