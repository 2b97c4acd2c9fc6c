/* A box of one letter: each thread puts one in, R times, where it is empty; the first thread takes them all. */
#include "common.h"

static pthread_mutex_t mutex = PTHREAD_MUTEX_INITIALIZER;
static pthread_cond_t full = PTHREAD_COND_INITIALIZER, empty = PTHREAD_COND_INITIALIZER;
static int box;

static void body(int me) {
    for (int i = 0; i < R; i++) {
        pthread_mutex_lock(&mutex);
#ifdef BUG /* who wakes doesn't look again */
        if (box)
#else
        while (box)
#endif
            pthread_cond_wait(&empty, &mutex);
        box = me + 1;
        pthread_cond_signal(&full);
        pthread_mutex_unlock(&mutex);
    }
}

int main(void) {
    int sum = 0;
    start_all();
    for (int i = 0; i < N * R; i++) {
        pthread_mutex_lock(&mutex);
        while (!box)
            pthread_cond_wait(&full, &mutex);
        sum += box;
        box = 0;
        pthread_cond_signal(&empty);
        pthread_mutex_unlock(&mutex);
    }
    join_all();
    assert(sum == R * N * (N + 1) / 2);
    return sum;
}
