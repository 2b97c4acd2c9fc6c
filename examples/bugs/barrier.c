/* A barrier that is used again too early: its count is set back by the last to come, while others still look whether it is
   full. Who looks too late waits for good. */
#include <stdatomic.h>
#include "two.h"

enum { THREADS = 2 };
static _Atomic int arrived;
#ifdef REPAIRED
static _Atomic int round;
#endif

static void barrier(void) {
#ifdef REPAIRED
    int mine = round;
    if (++arrived == THREADS) {
        arrived = 0;
        round = mine + 1;
    } else {
        while (round == mine)
            ;
    }
#else
    if (++arrived == THREADS)
        arrived = 0;
    else
        while (arrived != 0)
            ;
#endif
}

static void *work(void *arg) {
    barrier();
    barrier();
    return arg;
}

int main(void) {
    RUN(work, work);
    return 0;
}
