void close(struct port *p, int wait)
{
	if (wait)
		release_later(p->buf);
	else
		release_now(p->buf);
	release_now(p);
}
