void g(void)
{
	f(a,
#ifdef B
	  b,
#endif
	  c);
	f(a,
	  c);
}
