int k(int x)
{
	if (x)
		return (x);
	return (x + 1);
}
int l(int x)
{
	return x + 1;
}
