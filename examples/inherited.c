void tick(int n)
{
	while (n > 0)
		n = step(n);
}

void reset(int n)
{
	count = n;
}

void start(void)
{
	set_handler(tick);
	tick(5);
	reset(0);
}
