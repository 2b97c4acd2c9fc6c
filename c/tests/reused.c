/* Threads that are started one after the other, more often than there are threads: each is as a new one. */
#include "common.h"

enum { STARTS = 7 };

static _Thread_local int local = 5;
static int sum;
static pthread_key_t key;
static pthread_mutex_t mutex = PTHREAD_MUTEX_INITIALIZER;

static void ended(void *value) { sum += (int)value; }

static void body(int me) {
    assert(local == 5 && errno == 0 && !pthread_getspecific(key));
    local = errno = 7;
    pthread_setspecific(key, (void *)1);
    pthread_mutex_lock(&mutex);
    sum += me;
    pthread_mutex_unlock(&mutex);
    if (me & 1)
        pthread_exit((void *)me);
}

int main(void) {
    pthread_key_create(&key, ended);
    for (int i = 0; i < STARTS; i++) {
        assert(pthread_create(&threads[i % N], 0, thread, (void *)i) == 0);
#ifdef BUG /* what a thread writes at its end is read before it is joined */
        assert(sum >= 0);
#endif
        void *result;
        pthread_join(threads[i % N], &result);
        assert((int)result == i && pthread_equal(threads[i % N], i < 4 ? i + 1 : 4));
    }
    assert(sum == STARTS * (STARTS - 1) / 2 + STARTS);
    (void)start_all, (void)join_all;
    return 0;
}
