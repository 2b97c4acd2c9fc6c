/* What else threads.h has: a mutex that is tried again and again, a broadcast, and threads by their numbers. */
#include <assert.h>
#include <threads.h>

#ifndef N
#define N 2
#endif

static mtx_t mutex;
static cnd_t opened;
static int is_open;
static thrd_t own[N];

static int thread(void *arg) {
    own[(int)arg] = thrd_current();
#ifdef BUG /* who finds it held goes in all the same */
    mtx_trylock(&mutex);
#else
    while (mtx_trylock(&mutex) == thrd_busy)
        thrd_yield();
#endif
    while (!is_open)
        cnd_wait(&opened, &mutex);
    mtx_unlock(&mutex);
    return 7;
}

int main(void) {
    thrd_t threads[N];
    mtx_init(&mutex, mtx_plain);
    cnd_init(&opened);
    for (int i = 0; i < N; i++)
        assert(thrd_create(&threads[i], thread, (void *)i) == thrd_success);
    mtx_lock(&mutex);
    is_open = 1;
    cnd_broadcast(&opened);
    mtx_unlock(&mutex);
    for (int i = 0, result; i < N; i++)
        assert(thrd_join(threads[i], &result) == thrd_success && result == 7 && thrd_equal(own[i], threads[i]));
    mtx_destroy(&mutex);
    cnd_destroy(&opened);
    return 0;
}
