/* A product of matrices, a sieve and a list. */

static int a[16][16], b[16][16], c[16][16];
static char composite[20000];
static struct node { struct node *next; unsigned value; } nodes[500];

static unsigned multiply(void)
{
	for (int i = 0; i < 16; i++)
		for (int j = 0; j < 16; j++) {
			a[i][j] += i + j;
			b[i][j] += i ^ j;
		}
	for (int i = 0; i < 16; i++)
		for (int j = 0; j < 16; j++) {
			c[i][j] = 0;
			for (int k = 0; k < 16; k++)
				c[i][j] += a[i][k] * b[k][j];
		}
	return c[3][5] + c[15][15];
}

static unsigned sieve(void)
{
	unsigned count = 0;
	for (unsigned n = 2; n < sizeof composite; n++)
		if (!composite[n]) {
			count++;
			for (unsigned m = 2 * n; m < sizeof composite; m += n)
				composite[m] = 1;
		}
	return count;
}

static unsigned walk(void)
{
	struct node *first = 0;
	for (unsigned i = 0; i < 500; i++) {
		nodes[i].value = i * 7 % 501;
		struct node **at = &first;
		while (*at && (*at)->value < nodes[i].value)
			at = &(*at)->next;
		nodes[i].next = *at;
		*at = &nodes[i];
	}
	unsigned sum = 0;
	for (struct node *n = first; n; n = n->next)
		sum = sum * 3 + n->value;
	return sum;
}

int work(void) { return multiply() + sieve() + walk(); }
