/* The same work over like tables in plain C: pages in any order, a hint that is looked at first, and an index from number
   to place, which is the red-black tree of <search.h>. */
#define _GNU_SOURCE
#include <search.h>
#include <stdint.h>
#include <stdio.h>
#include <stdlib.h>
#include <string.h>
#include <time.h>

enum { ROUNDS = 3, ACCESSES = 10000000, READS = 100000, MAPS = 500000 };

struct page { uint64_t number; uint8_t read, write, execute; uint8_t *bytes; };
struct index_entry { uint64_t number; size_t place; };
struct space { struct page *pages; size_t count, room, hint; void *index; };

static int compare(const void *a, const void *b) {
    uint64_t x = ((const struct index_entry *)a)->number, y = ((const struct index_entry *)b)->number;
    return x < y ? -1 : x > y;
}

static struct index_entry *entry_of(const struct space *s, uint64_t number) {
    struct index_entry key = {number, 0};
    void *found = tfind(&key, &s->index, compare);
    return found ? *(struct index_entry **)found : NULL;
}

static void add_entry(struct space *s, uint64_t number, size_t place) {
    struct index_entry *e = malloc(sizeof *e);
    *e = (struct index_entry){number, place};
    tsearch(e, &s->index, compare);
}

static struct page *page_of(struct space *s, uint64_t number) {
    if (s->hint < s->count && s->pages[s->hint].number == number) return &s->pages[s->hint];
    struct index_entry *e = entry_of(s, number);
    if (!e) return NULL;
    s->hint = e->place;
    return &s->pages[s->hint];
}

static inline int load(struct space *s, uint64_t address, void *out, size_t size) {
    struct page *p = page_of(s, address / 4096);
    if (!p || !p->read || address % 4096 + size > 4096) return 0;
    memcpy(out, p->bytes + address % 4096, size);
    return 1;
}

static inline int store(struct space *s, uint64_t address, const void *from, size_t size) {
    struct page *p = page_of(s, address / 4096);
    if (!p || !p->write || address % 4096 + size > 4096) return 0;
    memcpy(p->bytes + address % 4096, from, size);
    return 1;
}

static void map(struct space *s, uint64_t number) {
    if (entry_of(s, number)) return;
    if (s->count == s->room) s->pages = realloc(s->pages, (s->room = s->room * 2 + 4) * sizeof *s->pages);
    add_entry(s, number, s->count);
    s->pages[s->count++] = (struct page){number, 1, 1, 1, calloc(1, 4096)};
}

static void unmap(struct space *s, uint64_t number) {
    struct index_entry *e = entry_of(s, number);
    if (!e) return;
    size_t place = e->place;
    tdelete(e, &s->index, compare);
    free(e);
    free(s->pages[place].bytes);
    s->pages[place] = s->pages[--s->count];
    if (place < s->count) entry_of(s, s->pages[place].number)->place = place;
}

static struct space space_fork(const struct space *s) {
    struct space other = {malloc((s->count + 1) * sizeof *s->pages), s->count, s->count + 1, s->hint, NULL};
    for (size_t i = 0; i < s->count; i++) {
        other.pages[i] = s->pages[i];
        other.pages[i].bytes = memcpy(malloc(4096), s->pages[i].bytes, 4096);
        add_entry(&other, s->pages[i].number, i);
    }
    return other;
}

static void space_free(struct space *s) {
    for (size_t i = 0; i < s->count; i++) free(s->pages[i].bytes);
    free(s->pages);
    tdestroy(s->index, free);
}

static double now(void) {
    struct timespec t;
    clock_gettime(CLOCK_MONOTONIC, &t);
    return t.tv_sec * 1e9 + t.tv_nsec;
}

static uint64_t done(int work, struct space *s, uint64_t pages, uint64_t *calls) {
    uint64_t sum = 0, value, step = work == 1 || work == 3 ? 7919 : 0;
    *calls = work < 5 ? ACCESSES : work == 5 ? READS : work == 6 ? MAPS : 1;
    if (work < 2)
        for (uint64_t i = 0; i < ACCESSES; i++) {
            if (load(s, 0x10000 + 8192 * (i * step % pages) + i % 512 * 8, &value, 8)) sum += value;
        }
    else if (work < 4)
        for (uint64_t i = 0; i < ACCESSES; i++) sum += store(s, 0x10000 + 8192 * (i * step % pages) + i % 512 * 8, &i, 8);
    else if (work == 4)
        for (uint64_t i = 0; i < ACCESSES; i++) {
            uint32_t word;
            if (load(s, 0x10000 + i % 1024 * 4, &word, 4)) sum += word;
        }
    else if (work == 5)
        for (uint64_t i = 0; i < READS; i++) {
            uint8_t *bytes = malloc(4096);
            if (load(s, 0x10000 + 8192 * (i % pages), bytes, 4096)) sum += 4096;
            *(volatile uint8_t *)bytes;
            free(bytes);
        }
    else if (work == 6)
        for (uint64_t i = 0; i < MAPS / 2; i++) { map(s, 0x11); map(s, 0x13); unmap(s, 0x11); unmap(s, 0x13); sum += 2; }
    else {
        struct space other = space_fork(s);
        sum = other.count != 0;
        space_free(&other);
    }
    return sum;
}

int main(void) {
    static const uint64_t sizes[] = {1, 300, 16382};
    static const char *const names[] = {"load, one page", "load, page to page", "store, one page", "store, page to page",
        "fetch", "read of 4096 bytes", "map and unmap a page", "fork"};
    for (int n = 0; n < 3; n++) {
        struct space s = {0};
        for (uint64_t i = 0; i < sizes[n]; i++) map(&s, 0x10 + 2 * i);
        printf("%d pages, plain C\n", (int)sizes[n]);
        for (int work = 0; work < 8; work++) {
            double least = 1e18;
            uint64_t sum = 0, calls;
            for (int round = 0; round < ROUNDS; round++) {
                double start = now();
                sum += done(work, &s, sizes[n], &calls);
                double time = (now() - start) / calls;
                if (time < least) least = time;
            }
            printf("  %-22s %11.1f ns  (%llu)\n", names[work], least, (unsigned long long)sum);
        }
        space_free(&s);
    }
    return 0;
}
