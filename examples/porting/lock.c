/* A lock that spins for a while, and then sleeps. Nothing here knows of wathread. */
#include "platform.h"

#include "lock.h"

#define weak_alias(old, new) extern __typeof(old) new __attribute__((weak, alias(#old)))

int lib_lock_try(struct lib_lock *lock) { return lib_cas(&lock->word, 0, 1) != 0; }

int lib_lock_take(struct lib_lock *lock) {
    for (int spins = LIB_SPINS; spins && lock->word && !lock->waiters; spins--)
        lib_pause();
    while (lib_lock_try(lock)) {
        lib_add(&lock->waiters, 1);
        lib_cas(&lock->word, 1, 2);
        lib_sleep(&lock->word, 2);
        lib_add(&lock->waiters, -1);
    }
    return 0;
}

int lib_lock_give(struct lib_lock *lock) {
#ifdef EARLY /* a bug: who looks before it gives back may miss one that comes in between, and finds the lock at 1 */
    int waiters = lock->waiters;
    if (lib_swap(&lock->word, 0), waiters)
        lib_wake(&lock->word, 1);
#else
    int waiters = lock->waiters;
    if (lib_swap(&lock->word, 0) == 2 || waiters)
        lib_wake(&lock->word, 1);
#endif
    return 0;
}

weak_alias(lib_lock_take, lock_take);
weak_alias(lib_lock_give, lock_give);
