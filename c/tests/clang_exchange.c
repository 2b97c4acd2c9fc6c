/* Compare-exchanges of each width, signed and unsigned, strong and weak, alone and in loops, by values that come and by
   constants: one number of what they all answer. */
#include <stdatomic.h>
#include <stdint.h>
#include <wathread.h>

static uint32_t seed, sum;

static uint32_t next(void) {
    seed = seed * 1664525 + 1013904223;
    return seed >> 9;
}

static void note(uint64_t x) { sum = sum * 31 + (uint32_t)x + (uint32_t)(x >> 32) * 7; }

#define TRIES(type, name)                                                                                             \
    static _Atomic type name;                                                                                         \
    static type name##_plain;                                                                                         \
    static void name##_tries(void) {                                                                                  \
        type expected = next() % 4 ? name : (type)next(), some = (type)next();                                        \
        note(atomic_compare_exchange_strong(&name, &expected, some));                                                 \
        note((uint64_t)expected);                                                                                     \
        atomic_store(&name, next() % 2 ? -1 : 3);                                                                     \
        expected = -1;                                                                                                \
        note(atomic_compare_exchange_weak(&name, &expected, (type)next()));                                           \
        while (!atomic_compare_exchange_weak(&name, &expected, (type)(expected * 5 - 9))) {}                          \
        note((uint64_t)name);                                                                                         \
        note((uint64_t)__sync_val_compare_and_swap(&name##_plain, (type)-1, (type)next()));                           \
        note((uint64_t)__sync_val_compare_and_swap(&name##_plain, name##_plain, (type)(next() % 2 ? -1 : -5)));       \
        note((uint64_t)__atomic_fetch_nand(&name##_plain, (type)next(), __ATOMIC_SEQ_CST));                           \
        note(__sync_bool_compare_and_swap(&name##_plain, (type)(name##_plain - next() % 2), (type)(next() % 3 - 1))); \
    }

TRIES(signed char, s8)
TRIES(unsigned char, u8)
TRIES(short, s16)
TRIES(unsigned short, u16)
TRIES(int, s32)
TRIES(unsigned, u32)
TRIES(long long, s64)
TRIES(unsigned long long, u64)

/* What comes as a wider number, and what is wanted as one: the instructions of 64 bits with a narrow access. */
__attribute__((noinline)) static uint64_t wide(_Atomic unsigned char *p, uint64_t expected, uint64_t some) {
    unsigned char e = expected;
    atomic_compare_exchange_strong(p, &e, (unsigned char)some);
    return e;
}

__attribute__((noinline)) static uint64_t wide32(_Atomic uint32_t *p, int64_t expected) {
    uint32_t e = expected;
    atomic_compare_exchange_strong(p, &e, (uint32_t)(expected * 3));
    return e;
}

EXPORT("test") uint32_t test(uint32_t start) {
    seed = start;
    for (int i = 0; i < 20; i++) {
        s8_tries(), u8_tries(), s16_tries(), u16_tries(), s32_tries(), u32_tries(), s64_tries(), u64_tries();
        note(wide(&u8, next() % 2 ? u8 | ~255ull : next(), next()));
        note(wide32(&u32, next() % 2 ? (int64_t)(int32_t)u32 : next()));
    }
    return sum;
}
