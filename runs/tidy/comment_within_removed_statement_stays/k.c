void f(void)
{
	d(a /* c */ );
}
