/* A semaphore of two words, units and waiters: a post looks whether somebody waits before it adds its unit. Who comes to wait
   in between is not woken. */
#include <stdatomic.h>
#include <wathread.h>
#include "two.h"

static _Atomic int units, waiters;

static void take(void) {
    int found = units;
    while (found == 0 || !atomic_compare_exchange_strong(&units, &found, found - 1)) {
        if (found == 0) {
            waiters++;
            wait_while(&units, 0);
            waiters--;
        }
        found = units;
    }
}

static void post(void) {
#ifdef REPAIRED
    units++;
    if (waiters > 0)
        notify_one(&units);
#else
    int waiting = waiters;
    units++;
    if (waiting > 0)
        notify_one(&units);
#endif
}

static void *taker(void *arg) {
    take();
    return arg;
}

static void *poster(void *arg) {
    post();
    return arg;
}

int main(void) {
    RUN(taker, poster);
    return 0;
}
