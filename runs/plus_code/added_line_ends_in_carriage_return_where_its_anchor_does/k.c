void f(void)
{
	a();
}

void g(void)
{
	a();
}
