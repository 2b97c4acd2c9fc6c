/* A ticket lock whose tickets have one bit: with three who wait, two have the same ticket. */
#include <assert.h>
#include <stdatomic.h>
#include "two.h"

#ifdef REPAIRED
enum { TICKETS = 4 };
#else
enum { TICKETS = 2 };
#endif
static _Atomic unsigned next, serving;
static _Atomic int inside;

static void *work(void *arg) {
    unsigned mine = next++ % TICKETS;
    while (serving % TICKETS != mine)
        ;
    assert(inside++ == 0);
    inside--;
    serving++;
    return arg;
}

int main(void) {
    RUN(work, work, work);
    return 0;
}
