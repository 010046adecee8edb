void k(void)
{
	asm("nop");
	f(x);
}
void l(void)
{
	f(x);
}
