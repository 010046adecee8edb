struct ring *make_ring(int n)
{
	struct ring *r;

	r = kmalloc(n * 8, GFP_KERNEL);
	if (!r)
		return NULL;
	count_rings();
	memset(r, 0, n * 8);
	return r;
}

struct ring *copy_ring(struct ring *old)
{
	struct ring *r;

	r = kmalloc(old->size, GFP_KERNEL);
	if (!r)
		return NULL;
	r->size = old->size;
	memset(r, 0, old->size);
	return r;
}
