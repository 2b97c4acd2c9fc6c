/* A reader-writer lock by a mutex and a condition: the last reader that leaves wakes nobody, so a writer that waits for it
   sleeps for good. */
#include "two.h"

static pthread_mutex_t mutex = PTHREAD_MUTEX_INITIALIZER;
static pthread_cond_t changed = PTHREAD_COND_INITIALIZER;
static int readers, writing, value;

static void *reader(void *arg) {
    pthread_mutex_lock(&mutex);
    while (writing)
        pthread_cond_wait(&changed, &mutex);
    readers++;
    pthread_mutex_unlock(&mutex);

    int seen = *(volatile int *)&value;
    (void)seen;

    pthread_mutex_lock(&mutex);
    readers--;
#ifdef REPAIRED
    if (readers == 0)
        pthread_cond_broadcast(&changed);
#endif
    pthread_mutex_unlock(&mutex);
    return arg;
}

static void *writer(void *arg) {
    pthread_mutex_lock(&mutex);
    while (writing || readers > 0)
        pthread_cond_wait(&changed, &mutex);
    writing = 1;
    pthread_mutex_unlock(&mutex);

    value = 1;

    pthread_mutex_lock(&mutex);
    writing = 0;
    pthread_cond_broadcast(&changed);
    pthread_mutex_unlock(&mutex);
    return arg;
}

int main(void) {
    RUN(reader, writer);
    return 0;
}
