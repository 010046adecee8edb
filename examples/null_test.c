int first(struct node *n)
{
	if (n == NULL)
		return 0;
	return n->x;
}

int second(struct node *n)
{
	if (!n)
		return 0;
	if (NULL == n->next)
		return 0;
	return n->next->x;
}
