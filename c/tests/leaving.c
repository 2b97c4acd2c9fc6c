/* Ends from within: threads by pthread_exit and thrd_exit, behind several calls, with what is pushed there; and main by
   exit, which calls what atexit was given. */
#include "common.h"
#include <stdlib.h>
#include <threads.h>

static pthread_mutex_t mutex = PTHREAD_MUTEX_INITIALIZER;
static int sum;

static void unlock(void *amount) {
    sum += (int)amount;
    pthread_mutex_unlock(&mutex);
}

static _Noreturn void die(int me) {
    if (me & 1)
        thrd_exit(me);
    pthread_exit((void *)me);
}

static int deep(int left, int me) {
    if (left)
        return deep(left - 1, me) + 1;
    return me < N ? (die(me), 0) : 7;
}

static void body(int me) {
    assert(deep(2, N) == 9); /* this one comes back */
    pthread_mutex_lock(&mutex);
    pthread_cleanup_push(unlock, (void *)1);
    int (*function)(int, int) = deep;
    sum += function(2, me);
    assert(0);
    pthread_cleanup_pop(0);
}

static void stop(int status) {
    if (status == N)
        exit(0);
}

static void last(void) { assert(sum == N); }

int main(void) {
    assert(atexit(last) == 0);
    start_all();
    join_all();
#ifdef BUG /* an end that says that something failed */
    exit(1);
#endif
    stop(sum);
    assert(0);
    return 1;
}
