void f(void)
{
	y = neg(-x) + neg(a + b);
}
