/* A pool that is shut down: the worker looks whether it is to stop before it looks for work, so the last item is left. */
#include <assert.h>
#include "two.h"

static pthread_mutex_t mutex = PTHREAD_MUTEX_INITIALIZER;
static pthread_cond_t changed = PTHREAD_COND_INITIALIZER;
static int items, stopped, made;

static void *worker(void *arg) {
    pthread_mutex_lock(&mutex);
    for (;;) {
        while (items == 0 && !stopped)
            pthread_cond_wait(&changed, &mutex);
#ifdef REPAIRED
        if (items == 0)
            break;
#else
        if (stopped)
            break;
#endif
        items--;
        made++;
    }
    pthread_mutex_unlock(&mutex);
    return arg;
}

static void *boss(void *arg) {
    for (int i = 0; i < 2; i++) {
        pthread_mutex_lock(&mutex);
        if (i == 0)
            items++;
        else
            stopped = 1;
        pthread_cond_signal(&changed);
        pthread_mutex_unlock(&mutex);
    }
    return arg;
}

int main(void) {
    RUN(worker, boss);
    assert(made == 1);
    return 0;
}
