/* Once: who comes second doesn't wait until the first is through. */
#include <assert.h>
#include <stdatomic.h>
#include "two.h"

static _Atomic int begun, done, table;

static void once(void) {
    if (atomic_exchange(&begun, 1) == 0) {
        table = 42;
        done = 1;
    }
#ifdef REPAIRED
    while (!done)
        ;
#endif
}

static void *user(void *arg) {
    once();
    assert(table == 42);
    return arg;
}

int main(void) {
    RUN(user, user);
    return 0;
}
