void k(void)
{
	asm("nop");
	use(y);
}
void l(void)
{
	use(y);
}
