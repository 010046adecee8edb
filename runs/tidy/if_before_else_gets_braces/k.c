void f(void)
{
	if (a)
		d(a);
	else
		b();
}
