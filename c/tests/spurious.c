/* What takes into account that waits wake and trials fail for nothing (--spurious). */
#include "common.h"
#include <semaphore.h>
#include <stdatomic.h>

static pthread_mutex_t mutex = PTHREAD_MUTEX_INITIALIZER;
static pthread_cond_t condition = PTHREAD_COND_INITIALIZER;
static _Atomic int count;
static int full, sum;

static void add(void) {
    int had = count;
    while (!atomic_compare_exchange_weak(&count, &had, had + 1)) {}
}

static void body(int me) {
    add();
    if (me) {
        while (pthread_mutex_trylock(&mutex)) {}
        full++;
        pthread_cond_signal(&condition);
    } else {
        pthread_mutex_lock(&mutex);
#ifdef BUG /* who is woken doesn't look again */
        if (!full)
#else
        while (!full)
#endif
            pthread_cond_wait(&condition, &mutex);
        assert(full);
        sum++;
    }
    pthread_mutex_unlock(&mutex);
}

int main(void) {
    start_all();
    join_all();
    assert(count == N && sum == 1);
    return 0;
}
