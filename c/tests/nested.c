/* Each thread starts a thread itself, and so does the first one: each of these gets its own argument, and each thread a
   number of its own. */
#ifndef N
#define N 1
#endif
#include "common.h"

static _Atomic int seen; /* by the numbers of threads */
static int arguments[N + 1];

static void note(pthread_t number) {
    assert(!(seen & 1 << number));
    seen |= 1 << number;
}

static void *inner(void *arg) {
    arguments[(int)arg - 10]++;
    note(pthread_self());
    return (void *)(3 * (int)arg);
}

static void body(int me) {
    pthread_t made;
    void *result;
    assert(pthread_create(&made, 0, inner, (void *)(me + 10)) == 0);
    pthread_join(made, &result);
    assert((int)result == 3 * (me + 10) && !pthread_equal(made, pthread_self()));
}

int main(void) {
    start_all();
    body(N);
    join_all();
    for (int i = 0; i <= N; i++)
        assert(arguments[i] == 1);
    return 0;
}
