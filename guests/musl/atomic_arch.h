/* In the place of musl's arch/riscv64/atomic_arch.h. A process has one thread, so a load and a store do for what the A
   extension has instructions for; the compiler has to keep their order. */
#define a_barrier a_barrier
static inline void a_barrier(void) { __asm__ __volatile__("" ::: "memory"); }

#define a_cas a_cas
static inline int a_cas(volatile int *place, int expected, int wanted)
{
    int found = *place;
    if (found == expected) *place = wanted;
    return found;
}

#define a_cas_p a_cas_p
static inline void *a_cas_p(volatile void *place, void *expected, void *wanted)
{
    void *volatile *pointer = (void *volatile *)place;
    void *found = *pointer;
    if (found == expected) *pointer = wanted;
    return found;
}
