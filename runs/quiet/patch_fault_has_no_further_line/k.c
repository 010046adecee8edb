void f(void)
{
	h();
}
