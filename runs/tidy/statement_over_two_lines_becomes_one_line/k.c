void f(void)
{
	q = dev_alloc(d->parent,
			sizeof(*q) * 20);	/* why */
}
