/* The steps of the platform: Linux on x86-64. */
#ifndef PLATFORM_H
#define PLATFORM_H
#include <linux/futex.h>
#include <sys/syscall.h>
#include <unistd.h>

#define LIB_SPINS 100

static inline int lib_cas(volatile int *word, int old, int new) {
    __asm__ __volatile__("lock; cmpxchg %3, %1" : "=a"(old), "=m"(*word) : "a"(old), "r"(new) : "memory");
    return old;
}

static inline int lib_swap(volatile int *word, int new) {
    __asm__ __volatile__("xchg %0, %1" : "=r"(new), "=m"(*word) : "0"(new) : "memory");
    return new;
}

static inline void lib_add(volatile int *word, int more) {
    __asm__ __volatile__("lock; add %1, %0" : "=m"(*word) : "r"(more) : "memory");
}

static inline void lib_pause(void) { __asm__ __volatile__("pause" : : : "memory"); }
static inline void lib_sleep(volatile int *word, int value) { syscall(SYS_futex, word, FUTEX_WAIT_PRIVATE, value, 0); }
static inline void lib_wake(volatile int *word, int most) { syscall(SYS_futex, word, FUTEX_WAKE_PRIVATE, most); }

#endif
