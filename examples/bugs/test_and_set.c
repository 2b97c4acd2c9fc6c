/* A spin lock that looks and then takes, in two steps: both may look before either takes. */
#include <assert.h>
#include <stdatomic.h>
#include "two.h"

static _Atomic int held, inside;

static void *work(void *arg) {
#ifdef REPAIRED
    while (atomic_exchange(&held, 1))
        ;
#else
    while (held)
        ;
    held = 1;
#endif
    assert(inside++ == 0);
    inside--;
    held = 0;
    return arg;
}

int main(void) {
    RUN(work, work);
    return 0;
}
