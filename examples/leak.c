int send(struct line *l, int n)
{
	char *data;

	data = get_buffer(n);
	if (n > l->most)
		return -EINVAL;
	fill(data, n);
	put_buffer(data);
	return 0;
}
