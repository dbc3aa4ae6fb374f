/* What gcc calls for atomic operations where the machine has no instructions for them: gnulib's programs do. No other
   thread can come between a load and a store; a handler could. */
#include <stdint.h>

/* by the names of gcc, which declares these functions otherwise */
#define NAMED(name, bytes) __asm__("__atomic_" #name "_" #bytes)

#define FETCH(name, bytes, type, value) \
    type fetch_##name##_##bytes(volatile type *, type, int) NAMED(fetch_##name, bytes); \
    type fetch_##name##_##bytes(volatile type *at, type with, int order) \
    { \
        type was = *at; \
        *at = value; \
        return was; \
    }

#define ATOMIC(bytes, type) \
    type load_##bytes(const volatile type *, int) NAMED(load, bytes); \
    type load_##bytes(const volatile type *at, int order) { return *at; } \
    void store_##bytes(volatile type *, type, int) NAMED(store, bytes); \
    void store_##bytes(volatile type *at, type new, int order) { *at = new; } \
    _Bool compare_exchange_##bytes(volatile type *, type *, type, int, int) NAMED(compare_exchange, bytes); \
    _Bool compare_exchange_##bytes(volatile type *at, type *expected, type new, int order, int otherwise) \
    { \
        type was = *at; \
        _Bool same = was == *expected; \
        if (same) *at = new; else *expected = was; \
        return same; \
    } \
    type exchange_##bytes(volatile type *, type, int) NAMED(exchange, bytes); \
    type exchange_##bytes(volatile type *at, type new, int order) \
    { \
        type was = *at; \
        *at = new; \
        return was; \
    } \
    FETCH(add, bytes, type, was + with) \
    FETCH(sub, bytes, type, was - with) \
    FETCH(and, bytes, type, was & with) \
    FETCH(or, bytes, type, was | with) \
    FETCH(xor, bytes, type, was ^ with) \
    FETCH(nand, bytes, type, ~(was & with))

ATOMIC(1, uint8_t)
ATOMIC(2, uint16_t)
ATOMIC(4, uint32_t)
ATOMIC(8, uint64_t)
