void f(void)
{
	asm volatile ("nop");
	old();
}
void g(void)
{
	old();
}
