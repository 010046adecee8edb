void f(void)
{
	f(x); f(x, b);
}
