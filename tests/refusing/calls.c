/* A library for LD_PRELOAD, for the program of calls.rattle: a request of MARK and N bytes has the Nth request from
 * there on refused, whichever thread makes it, and one of just MARK bytes ends that, and is refused itself where one
 * was. It is made without headers, over glibc. */
typedef unsigned long size;

extern void *__libc_malloc(size), *__libc_calloc(size, size), *__libc_realloc(void *, size);
extern void *__libc_memalign(size, size);

enum { MARK = 1 << 26, MOST = 1 << 24 };

static size at, count;
static int was;

/* Whether a request is refused; a mark is made a request for few bytes. */
static int refused(size *length) {
    if (*length > MARK && *length - MARK < MOST) {
        at = *length - MARK, count = 0, was = 0;
        *length = 16;
        return 0;
    }
    if (*length == MARK) {
        int told = was;
        at = 0, was = 0;
        *length = 16;
        return told;
    }
    if (at == 0 || __atomic_add_fetch(&count, 1, __ATOMIC_SEQ_CST) != at) return 0;
    __atomic_store_n(&was, 1, __ATOMIC_SEQ_CST);
    return 1;
}

void *malloc(size length) { return refused(&length) ? 0 : __libc_malloc(length); }
void *calloc(size each, size length) { return refused(&length) ? 0 : __libc_calloc(each, length); }
void *realloc(void *old, size length) { return refused(&length) ? 0 : __libc_realloc(old, length); }
void *memalign(size unit, size length) { return refused(&length) ? 0 : __libc_memalign(unit, length); }
void *aligned_alloc(size unit, size length) { return memalign(unit, length); }

int posix_memalign(void **place, size unit, size length) {
    if (refused(&length)) return 12;
    *place = __libc_memalign(unit, length);
    return *place ? 0 : 12;
}
