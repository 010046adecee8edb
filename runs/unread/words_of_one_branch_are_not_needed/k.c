void k(void)
{
	asm("nop");
	h(x);
}
void m(void)
{
	asm("nop");
	f(y);
}
void l(void)
{
	f(x);
}
