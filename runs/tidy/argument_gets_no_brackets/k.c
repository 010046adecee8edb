void f(void)
{
	old(x + 1);
}
