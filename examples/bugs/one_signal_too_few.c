/* A queue of one place, with one condition for both kinds of waiting: a signal may wake one of the same kind, which goes to
   sleep again, and nobody else wakes. */
#include <assert.h>
#include "two.h"

static pthread_mutex_t mutex = PTHREAD_MUTEX_INITIALIZER;
static pthread_cond_t changed = PTHREAD_COND_INITIALIZER;
static int full;

static void tell(void) {
#ifdef REPAIRED
    pthread_cond_broadcast(&changed);
#else
    pthread_cond_signal(&changed);
#endif
}

static void *put(void *arg) {
    pthread_mutex_lock(&mutex);
    while (full)
        pthread_cond_wait(&changed, &mutex);
    full = 1;
    tell();
    pthread_mutex_unlock(&mutex);
    return arg;
}

static void *take(void *arg) {
    pthread_mutex_lock(&mutex);
    while (!full)
        pthread_cond_wait(&changed, &mutex);
    full = 0;
    tell();
    pthread_mutex_unlock(&mutex);
    return arg;
}

int main(void) {
    RUN(take, take, put, put);
    assert(!full);
    return 0;
}
