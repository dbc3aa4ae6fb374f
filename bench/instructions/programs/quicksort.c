/* Sorts lines by pointers. */

#define LINES 1500
static char text[LINES * 16];
static char *lines[LINES];
static unsigned seed = 1;

static unsigned draw(unsigned below)
{
	seed = seed * 1103515245 + 12345;
	return (seed >> 16 & 0x7fff) % below;
}

static int compare(const char *a, const char *b)
{
	while (*a && *a == *b)
		a++, b++;
	return (unsigned char)*a - (unsigned char)*b;
}

static void sort(int low, int high)
{
	while (low < high) {
		char *pivot = lines[(low + high) / 2];
		int i = low, j = high;
		while (i <= j) {
			while (compare(lines[i], pivot) < 0)
				i++;
			while (compare(pivot, lines[j]) < 0)
				j--;
			if (i <= j) {
				char *line = lines[i];
				lines[i++] = lines[j];
				lines[j--] = line;
			}
		}
		sort(low, j);
		low = i;
	}
}

int work(void)
{
	char *at = text;
	for (int i = 0; i < LINES; i++) {
		lines[i] = at;
		for (unsigned left = 3 + draw(12); left; left--)
			*at++ = 'a' + draw(8);
		*at++ = 0;
	}
	sort(0, LINES - 1);
	unsigned sum = 0;
	for (int i = 0; i < LINES; i++)
		sum = sum * 31 + lines[i][0] + lines[i][1];
	return sum;
}
