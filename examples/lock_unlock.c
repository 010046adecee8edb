int put(struct queue *q, int x)
{
	mutex_lock(&q->lock);
	if (q->full) {
		mutex_unlock(&q->lock);
		return -1;
	}
	q->last = x;
	mutex_unlock(&q->lock);
	return 0;
}

int take(struct queue *q)
{
	int x;

	mutex_lock(&q->lock);
	while (q->empty)
		wait_for(q);
	x = q->last;
	mutex_unlock(&q->lock);
	return x;
}

void close(struct queue *q)
{
	mutex_lock(&q->lock);
	q->open = 0;
}
