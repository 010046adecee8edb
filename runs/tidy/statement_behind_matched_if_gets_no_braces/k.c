void f(void)
{
	if (!a)
		return;
	b();
}
