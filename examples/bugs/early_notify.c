/* A mutex by wait and notify whose unlock notifies before it stores that the mutex is free: who is woken finds it held and
   goes to sleep again, and nobody wakes it any more. */
#include <stdatomic.h>
#include <wathread.h>
#include "two.h"

static _Atomic int held;

static void lock(void) {
    while (atomic_exchange(&held, 1))
        wait_while(&held, 1);
}

static void unlock(void) {
#ifdef REPAIRED
    held = 0;
    notify_one(&held);
#else
    notify_one(&held);
    held = 0;
#endif
}

static void *work(void *arg) {
    lock();
    unlock();
    return arg;
}

int main(void) {
    RUN(work, work);
    return 0;
}
