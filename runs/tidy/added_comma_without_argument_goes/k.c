void f(void)
{
	f(); f(a);
}
