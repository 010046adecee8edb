void k(void)
{
	asm("nop");
	/* f(x); */
	h("f(x)");
}
void l(void)
{
	f(x);
}
