/* A seqlock whose reader looks at the count once, before it reads: a writer that comes in between is not seen. */
#include <assert.h>
#include <stdatomic.h>
#include "two.h"

static _Atomic unsigned sequence;
static _Atomic int low, high;

static void *writer(void *arg) {
    sequence++;
    low = 1;
    high = 1;
    sequence++;
    return arg;
}

static void *reader(void *arg) {
    unsigned before;
    int l, h;
    do {
        while ((before = sequence) % 2 != 0)
            ;
        l = low;
        h = high;
#ifdef REPAIRED
    } while (sequence != before);
#else
    } while (0);
#endif
    assert(l == h);
    return arg;
}

int main(void) {
    RUN(writer, reader);
    return 0;
}
