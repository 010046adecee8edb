void one(struct port *p)
{
	lock(p);
	irq_off();
	release(p);
	irq_on();
	unlock(p);
}

void two(struct port *p)
{
	irq_off();
	lock(p);
	release(p);
	unlock(p);
	irq_on();
}

void three(struct port *p)
{
	irq_off();
	release(p);
	irq_on();
}
