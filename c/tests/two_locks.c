/* Two mutexes that each thread takes, all in one order. Threads that take them in two orders, and try again where the
   second one is held, can go round for ever. */
#include "common.h"

static pthread_mutex_t mutexes[2];
static int sum;

static void take(int me) {
#ifdef BUG /* gives the first one back, and tries again */
    int first = me & 1;
    for (;;) {
        pthread_mutex_lock(&mutexes[first]);
        if (pthread_mutex_trylock(&mutexes[1 - first]) == 0)
            return;
        pthread_mutex_unlock(&mutexes[first]);
    }
#else
    (void)me;
    pthread_mutex_lock(&mutexes[0]);
    pthread_mutex_lock(&mutexes[1]);
#endif
}

static void body(int me) {
    for (int i = 0; i < R; i++) {
        take(me);
        sum++;
        pthread_mutex_unlock(&mutexes[1]);
        pthread_mutex_unlock(&mutexes[0]);
    }
}

int main(void) {
    for (int i = 0; i < 2; i++)
        pthread_mutex_init(&mutexes[i], 0);
    start_all();
    join_all();
    assert(sum == N * R);
    for (int i = 0; i < 2; i++)
        pthread_mutex_destroy(&mutexes[i]);
    return sum;
}
