void f(void)
{
	y = id(x + 1) * 2;
}
