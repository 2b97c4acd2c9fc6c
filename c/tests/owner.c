/* A recursive lock made by hand, whose owner is 0 where it is free, as programs keep a pthread_t. */
#include "common.h"

static pthread_mutex_t mutex = PTHREAD_MUTEX_INITIALIZER;
static _Atomic pthread_t owner;
static int depth, sum;

static void lock(void) {
#ifdef BUG /* who holds it waits for itself */
    if (1) {
#else
    if (owner != pthread_self()) {
#endif
        pthread_mutex_lock(&mutex);
        owner = pthread_self();
    }
    depth++;
}

static void unlock(void) {
    if (--depth)
        return;
    owner = 0;
    pthread_mutex_unlock(&mutex);
}

static void body(int me) {
    lock();
    lock();
    sum += me + 1;
    unlock();
    unlock();
}

int main(void) {
    body(N);
    start_all();
    join_all();
    body(N + 1);
    assert(sum == N * (N + 1) / 2 + 2 * N + 3);
    return sum;
}
