void k(void)
{
	asm("nop");
	use(y);
}
void l(void)
{
	set(y);
	use(y);
}
