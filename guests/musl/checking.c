/* The allocator of rv-cc --checking: over musl's, with a mark before each block, bytes behind it, and a fill of blocks
   that were freed. What was written where it shouldn't be, freed twice or never given ends the program by SIGTRAP, with
   a line on descriptor 2. Each block is looked at when it is freed and at the end of the program, and a freed one also
   before its memory is given again. */
#include <errno.h>
#include <stdint.h>
#include <stdio.h>
#include <stdlib.h>
#include <string.h>
#include <unistd.h>

void *__libc_malloc(size_t);
void __libc_free(void *);

#define LIVE 0x6c6976656c697665UL
#define FREED 0x6672656564667265UL
#define BEHIND 16           /* bytes behind a block */
#define BEHIND_BYTE 0xb5
#define FREED_BYTE 0xdf
#define KEPT (1 << 20)      /* so many bytes of freed blocks aren't given again */
#define MOST (SIZE_MAX / 4) /* no block has so many */

struct block {
    struct block *next, *previous; /* in its list */
    size_t size;
    void *whole;                   /* what musl gave */
    void *made_at, *freed_at;      /* behind these calls */
    uintptr_t unused, mark;        /* LIVE or FREED, by the block's address: what stands right before the bytes */
};

/* Blocks that are in use, and those that were freed, the last one first. */
static struct block live = {.next = &live, .previous = &live}, freed = {.next = &freed, .previous = &freed};
static size_t kept;

static unsigned char *bytes_of(struct block *it) { return (unsigned char *)(it + 1); }
static uintptr_t marked(const struct block *it, uintptr_t mark) { return mark ^ (uintptr_t)it; }

static void put_into(struct block *list, struct block *it)
{
    it->next = list->next;
    it->previous = list;
    list->next->previous = it;
    list->next = it;
}

static void take_out(struct block *it)
{
    it->previous->next = it->next;
    it->next->previous = it->previous;
}

static _Noreturn void stop(const char *what, const struct block *it)
{
    char line[200];
    int length = snprintf(line, sizeof line, "checking: %s", what);
    if (it) length += sprintf(line + length, ": a block of %zu bytes, made at %p", it->size, it->made_at);
    if (it && it->freed_at) length += sprintf(line + length, ", freed at %p", it->freed_at);
    line[length++] = '\n';
    write(2, line, length);
    __builtin_trap();
}

typedef uint64_t __attribute__((may_alias)) word;

static int are_all(const unsigned char *bytes, size_t count, unsigned char wanted)
{
    for (size_t at = 0, part; at < count; at += part) {
        part = (uintptr_t)(bytes + at) % 8 == 0 && count - at >= 8 ? 8 : 1;
        if (part == 8 ? *(const word *)(bytes + at) != wanted * 0x0101010101010101UL : bytes[at] != wanted) return 0;
    }
    return 1;
}

static void check_live(const struct block *it)
{
    if (it->mark != marked(it, LIVE)) stop("written before a block", 0);
    if (!are_all(bytes_of((struct block *)it) + it->size, BEHIND, BEHIND_BYTE)) stop("written behind a block", it);
}

static void check_freed(const struct block *it)
{
    if (it->mark != marked(it, FREED)) stop("written before a block that was freed", 0);
    if (!are_all(bytes_of((struct block *)it), it->size, FREED_BYTE)) stop("written after it was freed", it);
}

/* The block that a program says it was given. */
static struct block *given(void *bytes)
{
    struct block *it = (struct block *)bytes - 1;
    if ((uintptr_t)bytes % 16 == 0 && it->mark == marked(it, FREED)) stop("freed twice", it);
    if ((uintptr_t)bytes % 16 != 0 || it->mark != marked(it, LIVE))
        stop("freed, but no such block was given, or bytes before it were written", 0);
    check_live(it);
    return it;
}

static void *make(size_t alignment, size_t size, void *at)
{
    if (size > MOST || alignment > MOST) {
        errno = ENOMEM;
        return 0;
    }
    char *whole = __libc_malloc(alignment + sizeof(struct block) + size + BEHIND);
    if (!whole) return 0;
    uintptr_t bytes = ((uintptr_t)whole + sizeof(struct block) + alignment - 1) & -alignment;
    struct block *it = (struct block *)bytes - 1;
    *it = (struct block){.size = size, .whole = whole, .made_at = at, .mark = marked(it, LIVE)};
    memset(bytes_of(it) + size, BEHIND_BYTE, BEHIND);
    put_into(&live, it);
    return bytes_of(it);
}

static void unmake(struct block *it, void *at)
{
    take_out(it);
    it->mark = marked(it, FREED);
    it->freed_at = at;
    memset(bytes_of(it), FREED_BYTE, it->size);
    put_into(&freed, it);
    for (kept += it->size; kept > KEPT; kept -= it->size) {
        it = freed.previous;
        check_freed(it);
        take_out(it);
        __libc_free(it->whole);
    }
}

#define HERE __builtin_return_address(0)

void *malloc(size_t size) { return make(16, size, HERE); }

void free(void *bytes)
{
    int error = errno;
    if (bytes) unmake(given(bytes), HERE);
    errno = error;
}

void *calloc(size_t count, size_t size)
{
    if (size && count > MOST / size) {
        errno = ENOMEM;
        return 0;
    }
    void *bytes = make(16, count * size, HERE);
    return bytes ? memset(bytes, 0, count * size) : 0;
}

/* Always elsewhere, so that an address of the old block shows. */
void *realloc(void *bytes, size_t size)
{
    struct block *it = bytes ? given(bytes) : 0;
    void *new = make(16, size, HERE);
    if (!new || !it) return new;
    memcpy(new, bytes, size < it->size ? size : it->size);
    unmake(it, HERE);
    return new;
}

void *aligned_alloc(size_t alignment, size_t size)
{
    if (!alignment || alignment & (alignment - 1)) {
        errno = EINVAL;
        return 0;
    }
    return make(alignment < 16 ? 16 : alignment, size, HERE);
}

size_t malloc_usable_size(void *bytes) { return bytes ? given(bytes)->size : 0; }

__attribute__((destructor)) static void check_all(void)
{
    for (struct block *it = live.next; it != &live; it = it->next) check_live(it);
    for (struct block *it = freed.next; it != &freed; it = it->next) check_freed(it);
}
