/* The one of a round that the barrier names destroys it and makes it anew; the others may still be on their way out. */
#include "common.h"
#include <wathread.h>

static pthread_barrier_t barrier;
static _Atomic int made;

static void body(int me) {
    (void)me;
    for (int round = 1; round <= R; round++) {
        if (pthread_barrier_wait(&barrier) == PTHREAD_BARRIER_SERIAL_THREAD) {
            pthread_barrier_destroy(&barrier);
            pthread_barrier_init(&barrier, 0, N);
            made = round;
            notify_all(&made);
        }
#ifndef BUG /* nobody waits until it is made */
        while (made != round)
            wait_while(&made, round - 1);
#endif
    }
}

int main(void) {
    assert(pthread_barrier_init(&barrier, 0, N) == 0);
    start_all();
    join_all();
    return made;
}
