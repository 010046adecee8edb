void k(void)
{
#if 0
	f(x);
#endif
	asm("nop");
}
void l(void)
{
	f(x);
}
