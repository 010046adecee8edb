void one(void)
{
	f(1);
}

void two(void)
{
	f(2);
	f(3);
}

void three(void)
{
	h(4);
}
