/* Peterson's lock with its first two stores exchanged: a thread gives the turn away before it says that it wants in. */
#include <assert.h>
#include <stdatomic.h>
#include "two.h"

static _Atomic int wants[2], turn, inside;

static void *work(void *arg) {
    int me = (int)arg, other = 1 - me;
#ifdef REPAIRED
    wants[me] = 1;
    turn = other;
#else
    turn = other;
    wants[me] = 1;
#endif
    while (wants[other] && turn == other)
        ;
    assert(inside++ == 0);
    inside--;
    wants[me] = 0;
    return arg;
}

int main(void) {
    RUN(work, work);
    return 0;
}
