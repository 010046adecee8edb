void k(void)
{
	asm("nop");
	f(y);
}
void l(void)
{
	f(x);
}
