void probe_clocks(void)
{
	of_clk_init(np);
	of_node_put(np);
	clk_enable();
}

void probe_timers(void)
{
	timer_probe(np, flags);
	of_node_put ( np ) ;	of_node_put(parent);
}
