/* A library for LD_PRELOAD: in the program whose file is named FAILING_IN, calls of a kind, FAILING_CALLS, fail from
 * number FAILING_FROM on, from 1. The kinds are reads of pipes (r), writes to pipes (w), and writes to files but
 * standard streams (f). A kind in capitals has each of its calls interrupted once, and 1 has each read of a pipe give
 * one byte. The file FAILING_COUNT gets two numbers of eight bytes: how many calls there were, and how many of them
 * failed. It is made without headers, over glibc. */
typedef unsigned long size;

extern long __read(int, void *, size), __write(int, const void *, size), lseek(int, long, int);
extern void *mmap(void *, size, int, int, int, long);
extern int open(const char *, int, ...), close(int), strcmp(const char *, const char *), *__errno_location(void);
extern char *getenv(const char *), *strrchr(const char *, int), *strchr(const char *, int);
extern unsigned long strtoul(const char *, char **, int);

enum { INTERRUPTED = 4, FAILED = 5 };

static size none[2], *counts = none, from;
static const char *kinds = "";

__attribute__((constructor)) static void start(int count, char **words) {
    const char *name = getenv("FAILING_IN"), *calls = getenv("FAILING_CALLS"), *path = getenv("FAILING_COUNT");
    const char *number = getenv("FAILING_FROM");
    if (count < 1 || !name || !calls || !path || !number) return;
    const char *last = strrchr(words[0], '/');
    if (strcmp(last ? last + 1 : words[0], name) != 0) return;
    int file = open(path, 02);
    void *place = file < 0 ? (void *)-1 : mmap(0, sizeof none, 3, 1, file, 0);
    if (file >= 0) close(file);
    if (place == (void *)-1) return;
    counts = place;
    kinds = calls;
    from = strtoul(number, 0, 10);
}

/* The kind of a call. A pipe has no place to go to. */
static char kind_of(int stream, char of_pipes) {
    int error = *__errno_location(), is_pipe = lseek(stream, 0, 1) < 0;
    *__errno_location() = error;
    if (is_pipe) return of_pipes;
    return of_pipes == 'w' && stream > 2 ? 'f' : 0;
}

/* Whether a call fails: of its kind all from one on, or every other. */
static int fails(int stream, char of_pipes) {
    char kind = *kinds ? kind_of(stream, of_pipes) : 0;
    int are_interrupted = kind && strchr(kinds, kind - 'a' + 'A');
    if (!kind || (!strchr(kinds, kind) && !are_interrupted)) return 0;
    size number = __atomic_add_fetch(&counts[0], 1, __ATOMIC_RELAXED);
    if (are_interrupted ? number % 2 == 0 : from == 0 || number < from) return 0;
    __atomic_add_fetch(&counts[1], 1, __ATOMIC_RELAXED);
    *__errno_location() = are_interrupted ? INTERRUPTED : FAILED;
    return 1;
}

long read(int stream, void *room, size length) {
    if (fails(stream, 'r')) return -1;
    int is_short = length > 1 && strchr(kinds, '1') && kind_of(stream, 'r') == 'r';
    return __read(stream, room, is_short ? 1 : length);
}

long write(int stream, const void *bytes, size length) {
    return fails(stream, 'w') ? -1 : __write(stream, bytes, length);
}
