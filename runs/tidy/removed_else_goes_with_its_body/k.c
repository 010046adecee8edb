void f(void)
{
	if (a)
		b();
	else
		d(a);
}
