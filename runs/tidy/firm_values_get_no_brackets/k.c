void f(void)
{
	y = mul(f(x), p->n);
}
