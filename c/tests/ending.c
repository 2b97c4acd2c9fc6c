/* What is called at an end: destructors of keys in each thread, and what atexit was given behind main. Each thread has an
   errno and a row of chance of its own. */
#include "common.h"
#include <stdlib.h>
#include <string.h>
#include <threads.h>

static pthread_key_t key, gone;
static tss_t again;
static _Atomic int sum, rounds;

static void add(void *value) { sum += (int)value; }
static void put_again(void *value) { ++rounds; tss_set(again, value); }
static void wrong(void *value) { (void)value; assert(0); }

static void body(int me) {
    assert(errno == 0 && atexit(abort) != 0);
    errno = me + 1;
    srand(me);
    int first = rand();
    pthread_setspecific(key, (void *)(me + 1));
    pthread_setspecific(gone, (void *)1);
    if (me == 0)
        tss_set(again, (void *)1);
    srand(me);
    assert(errno == me + 1 && rand() == first);
}

static void last(void) { assert(sum == N * (N + 1) / 2 + 100); }
static void but_one(void) { sum += 100; }

int main(void) {
    assert(pthread_key_create(&key, add) == 0 && tss_create(&again, put_again) == thrd_success);
    assert(pthread_key_create(&gone, wrong) == 0 && pthread_key_delete(gone) == 0);
    assert(pthread_key_delete(PTHREAD_KEYS_MAX) == EINVAL);
    assert(atexit(last) == 0);
#ifndef BUG /* not all is there that is to be called */
    assert(atexit(but_one) == 0);
#endif
    pthread_setspecific(key, (void *)1000); /* main's isn't called */
    start_all();
    join_all();
    assert(rounds == PTHREAD_DESTRUCTOR_ITERATIONS && !strcmp(strerror(EBUSY), "Device or resource busy"));
    (void)but_one;
    return 0;
}
