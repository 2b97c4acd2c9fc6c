/* More threads come to a barrier than it lets go at a time: two by two they pass, none is lost, and none goes alone. */
#include "common.h"

static pthread_barrier_t barrier;
static _Atomic int come, first;

static void body(int me) {
    (void)me;
    ++come;
#ifdef BUG /* one leaves before its turn */
    if (come == 1)
        return;
#endif
    if (pthread_barrier_wait(&barrier) == PTHREAD_BARRIER_SERIAL_THREAD)
        ++first;
    assert(come >= 2);
}

int main(void) {
    assert(pthread_barrier_init(&barrier, 0, 2) == 0);
    start_all();
    body(N); /* N is odd */
    join_all();
    assert(first == (N + 1) / 2 && pthread_barrier_destroy(&barrier) == 0);
    return 0;
}
