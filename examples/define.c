void name(struct port *p, char *text)
{
	strcpy(p->name, text);
	if (p->label)
		strcpy(p->label, "none");
}
