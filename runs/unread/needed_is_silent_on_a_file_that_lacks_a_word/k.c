void k(void)
{
	asm("nop");
	put(bus);
}
