/* A library for LD_PRELOAD: in the program whose file is named REFUSED_IN it refuses the request for memory of number
 * REFUSED_AT, from 1, and with REFUSED_ON all after it; none for 0. The file REFUSED_COUNT gets two numbers of eight
 * bytes: how many requests there were, and how many of them were refused. It is made without headers, over glibc. */
typedef unsigned long size;

extern void *__libc_malloc(size), *__libc_calloc(size, size), *__libc_realloc(void *, size);
extern void *__libc_memalign(size, size);
extern void *mmap(void *, size, int, int, int, long);
extern int open(const char *, int, ...), close(int), strcmp(const char *, const char *), *__errno_location(void);
extern char *getenv(const char *), *strrchr(const char *, int);
extern unsigned long strtoul(const char *, char **, int);

static size none[2], *counts = none, at, on;

__attribute__((constructor)) static void start(int count, char **words) {
    const char *name = getenv("REFUSED_IN"), *number = getenv("REFUSED_AT"), *path = getenv("REFUSED_COUNT");
    if (count < 1 || !name || !number || !path) return;
    const char *last = strrchr(words[0], '/');
    if (strcmp(last ? last + 1 : words[0], name) != 0) return;
    int file = open(path, 02);
    void *place = file < 0 ? (void *)-1 : mmap(0, sizeof none, 3, 1, file, 0);
    if (file >= 0) close(file);
    if (place == (void *)-1) return;
    counts = place;
    on = getenv("REFUSED_ON") != 0;
    at = strtoul(number, 0, 10);
}

/* Counts a request, which is to be refused or not. */
static int refused(void) {
    if (counts == none) return 0;
    size number = __atomic_add_fetch(&counts[0], 1, __ATOMIC_RELAXED);
    if (at == 0 || number < at || (number > at && !on)) return 0;
    __atomic_add_fetch(&counts[1], 1, __ATOMIC_RELAXED);
    *__errno_location() = 12;
    return 1;
}

void *malloc(size length) { return refused() ? 0 : __libc_malloc(length); }
void *calloc(size each, size length) { return refused() ? 0 : __libc_calloc(each, length); }
void *realloc(void *old, size length) { return refused() ? 0 : __libc_realloc(old, length); }
void *memalign(size unit, size length) { return refused() ? 0 : __libc_memalign(unit, length); }
void *aligned_alloc(size unit, size length) { return memalign(unit, length); }
