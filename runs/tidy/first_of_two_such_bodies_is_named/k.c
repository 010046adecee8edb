void f(void)
{
	if (a)
		d(a);
	else
		d(b);
}
