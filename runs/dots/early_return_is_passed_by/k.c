static int probe(struct dev *d)
{
	struct priv *p;

	p = kmalloc(sizeof(*p), GFP_KERNEL);
	if (!p)
		return -ENOMEM;
	memset(p, 0, sizeof(*p));
	d->priv = p;
	return 0;
}
