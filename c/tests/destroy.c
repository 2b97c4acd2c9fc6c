/* POSIX's own example: who gives an item back wakes all that wait for it, and at once destroys the condition and frees the
   item. Those that were woken may still be on their way to sleep: they don't look at it again. */
#include "common.h"
#include <stdlib.h>

static pthread_mutex_t mutex = PTHREAD_MUTEX_INITIALIZER;
static struct item { pthread_cond_t given_back; } *item;
static int busy = 1;

static void body(int me) {
    (void)me;
    pthread_mutex_lock(&mutex);
    while (busy)
        pthread_cond_wait(&item->given_back, &mutex);
#ifdef BUG /* who was woken looks at it again */
    pthread_cond_signal(&item->given_back);
#endif
    pthread_mutex_unlock(&mutex);
}

int main(void) {
    item = malloc(sizeof *item);
    assert(pthread_cond_init(&item->given_back, 0) == 0);
    start_all();
    pthread_mutex_lock(&mutex);
    busy = 0;
    pthread_cond_broadcast(&item->given_back);
    pthread_mutex_unlock(&mutex);
    assert(pthread_cond_destroy(&item->given_back) == 0);
    assert(pthread_cond_init(&item->given_back, 0) == 0); /* the next one in its place */
    assert(pthread_cond_destroy(&item->given_back) == 0);
    free(item);
    join_all();
    return 0;
}
