int load(int n)
{
	trace_enter();
	while (n > 0) {
		trace_enter();
		n = step(n);
	}
	return n;
}

static void store(void)
{
	if (is_full())
		trace_enter();
}
