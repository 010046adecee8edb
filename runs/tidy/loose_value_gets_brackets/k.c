void f(void)
{
	y = mul(x + 1, 2);
}
