void k(void)
{
	asm("nop");
	ff(xx, f_, x1);
}
void l(void)
{
	f(x);
}
