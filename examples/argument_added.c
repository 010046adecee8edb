int start(struct clk *clk)
{
	int err = clk_set(clk, 100 * 1000);

	if (err)
		return err;
	return clk_set(clk->parent, 5);
}
