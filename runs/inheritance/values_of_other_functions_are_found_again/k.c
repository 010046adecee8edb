void one(void)
{
	lock(a);
}

void two(void)
{
	use(a);
	use(b);
	use(c);
}

void three(void)
{
	lock(b);
	use(a);
}
