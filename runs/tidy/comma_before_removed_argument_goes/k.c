void f(void)
{
	f(a); f(a,
	  b);
}
