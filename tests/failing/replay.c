/* A host: it writes the first REPLAY_LENGTH bytes of the file REPLAY, closes its output, and reads its input to the
 * end. It is made without headers, over glibc. */
typedef unsigned long size;

extern long read(int, void *, size), write(int, const void *, size);
extern int open(const char *, int, ...), close(int);
extern char *getenv(const char *);
extern unsigned long strtoul(const char *, char **, int);

static char bytes[65536];

int main(void) {
    const char *path = getenv("REPLAY"), *length = getenv("REPLAY_LENGTH");
    int file = path ? open(path, 0) : -1;
    long count = read(file, bytes, length ? strtoul(length, 0, 10) : 0);
    if (count < 0 || write(1, bytes, count) != count) return 1;
    close(1);
    while (read(0, bytes, sizeof bytes) > 0) {
    }
    return 0;
}
