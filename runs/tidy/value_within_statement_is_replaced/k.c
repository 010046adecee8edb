void f(void)
{
	return (d + 1)->priv->n;
}
