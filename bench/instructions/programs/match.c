/* Lines that a pattern of ^ . * $ matches, by backtracking. */

static const char pattern[] = "^a.*c.*e$";
static char line[64];
static unsigned seed = 7;

static int matches_here(const char *p, const char *s);

static int matches_star(char c, const char *p, const char *s)
{
	do {
		if (matches_here(p, s))
			return 1;
	} while (*s && (*s++ == c || c == '.'));
	return 0;
}

static int matches_here(const char *p, const char *s)
{
	if (!p[0])
		return 1;
	if (p[1] == '*')
		return matches_star(p[0], p + 2, s);
	if (p[0] == '$' && !p[1])
		return !*s;
	if (*s && (p[0] == '.' || p[0] == *s))
		return matches_here(p + 1, s + 1);
	return 0;
}

static int matches(const char *p, const char *s)
{
	if (p[0] == '^')
		return matches_here(p + 1, s);
	do {
		if (matches_here(p, s))
			return 1;
	} while (*s++);
	return 0;
}

int work(void)
{
	int count = 0;
	for (int i = 0; i < 3000; i++) {
		int length = 3 + (seed >> 20) % 30;
		for (int k = 0; k < length; k++) {
			seed = seed * 1664525 + 1013904223;
			line[k] = 'a' + (seed >> 24 & 7);
		}
		line[length] = 0;
		count += matches(pattern, line);
	}
	return count;
}
