void f(void)
{
	y = id(x + 1); g(id(a ? b : c), id(*p));
}
