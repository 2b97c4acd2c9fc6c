/* Deadlock of three locks: each of three takes the fork on its left and then that on its right. */
#include "two.h"

enum { N = 3 };
static pthread_mutex_t forks[N];

static void *dine(void *arg) {
    int me = (int)arg, first = me, second = (me + 1) % N;
#ifdef REPAIRED
    if (first > second)
        first = second, second = me;
#endif
    pthread_mutex_lock(&forks[first]);
    pthread_mutex_lock(&forks[second]);
    pthread_mutex_unlock(&forks[second]);
    pthread_mutex_unlock(&forks[first]);
    return arg;
}

int main(void) {
    RUN(dine, dine, dine);
    return 0;
}
