/* The lock of a library that is there, as such libraries write them: volatile words, steps of a header for the platform,
   and names that the program may take over. */
#ifndef LOCK_H
#define LOCK_H

struct lib_lock {
    volatile int word, waiters; /* 0 free, 1 held, 2 held and somebody may sleep */
};

int lib_lock_take(struct lib_lock *lock);
int lib_lock_try(struct lib_lock *lock);
int lib_lock_give(struct lib_lock *lock);

#endif
