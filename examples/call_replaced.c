int probe(struct device *dev)
{
	struct port *p = devm_alloc(dev, sizeof(*p));

	if (!p)
		return -1;
	p->name = devm_alloc(&p->dev, 16);
	return 0;
}
