/* Threads that nobody waits for go on behind the end of `main`: the last one of them finds what all have done. */
#include "common.h"
#include <semaphore.h>

static pthread_mutex_t mutex;
static sem_t begin;
static int sum, left = N;

static void body(int me) {
    sem_wait(&begin);
    pthread_mutex_lock(&mutex);
    sum += me + 1;
#ifdef BUG /* looks behind the unlock */
    left--;
    pthread_mutex_unlock(&mutex);
    if (!left)
        assert(sum-- == N * (N + 1) / 2);
#else
    if (!--left)
        assert(sum == N * (N + 1) / 2);
    pthread_mutex_unlock(&mutex);
#endif
}

int main(void) {
    assert(pthread_mutex_init(&mutex, 0) == 0 && sem_init(&begin, 0, 0) == 0);
    start_all();
    for (int i = 0; i < N; i++) {
        pthread_detach(threads[i]);
        sem_post(&begin);
    }
    return 0;
}
