/* A wake-up that is stolen: who was woken doesn't look again whether there is an item, and another took it meanwhile. */
#include <assert.h>
#include "two.h"

static pthread_mutex_t mutex = PTHREAD_MUTEX_INITIALIZER;
static pthread_cond_t filled = PTHREAD_COND_INITIALIZER;
static int items;

static void *take(void *arg) {
    pthread_mutex_lock(&mutex);
#ifdef REPAIRED
    while (items == 0)
#else
    if (items == 0)
#endif
        pthread_cond_wait(&filled, &mutex);
    assert(items > 0);
    items--;
    pthread_mutex_unlock(&mutex);
    return arg;
}

static void *put(void *arg) {
    for (int i = 0; i < 2; i++) {
        pthread_mutex_lock(&mutex);
        items++;
        pthread_cond_signal(&filled);
        pthread_mutex_unlock(&mutex);
    }
    return arg;
}

int main(void) {
    RUN(take, take, put);
    return 0;
}
