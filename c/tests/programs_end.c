/* main ends by pthread_exit: others join it, and what atexit was given is called behind the last one, that who was started
   by another one too. */
#include "common.h"
#include <stdlib.h>

static pthread_t mains;
static _Atomic int come;

static void *second(void *unused) {
    (void)unused;
    come++;
    return 0;
}

static void body(int me) {
    void *result;
    pthread_t other;
    come++;
    if (me)
        assert(pthread_join(mains, &result) == 0 && result == (void *)7);
    else
        assert(pthread_create(&other, 0, second, 0) == 0 && pthread_detach(other) == 0);
}

static void last(void) { assert(come == N + 1); }

int main(void) {
    mains = pthread_self();
    assert(atexit(last) == 0);
    start_all();
    (void)join_all;
#ifdef BUG /* a return from main waits for nobody */
    return 0;
#endif
    pthread_exit((void *)7);
}
