/* Lost increment: a count is read and written in two steps by two threads. */
#include <assert.h>
#include <stdatomic.h>
#include "two.h"

static _Atomic int count;

static void *work(void *arg) {
    for (int i = 0; i < 2; i++) {
#ifdef REPAIRED
        count++;
#else
        int seen = count;
        count = seen + 1;
#endif
    }
    return arg;
}

int main(void) {
    RUN(work, work);
    assert(count == 4);
    return 0;
}
