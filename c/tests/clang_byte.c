/* A byte as a lock, -1 where it is free. */
#include <stdatomic.h>

#include "common.h"

static _Atomic signed char lock = -1;
static int sum;

static void body(int me) {
    signed char free;
    do
        free = -1;
    while (!atomic_compare_exchange_weak(&lock, &free, (signed char)me));
    sum++;
    lock = -1;
}

int main(void) {
    start_all();
    join_all();
    assert(sum == N);
    return sum;
}
