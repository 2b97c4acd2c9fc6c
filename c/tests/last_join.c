/* main ends by pthread_exit while others join it and one another: what atexit was given is called behind all of them, and
   knows what they did. */
#include "common.h"
#include <stdlib.h>

static pthread_t mains, one;
static int first_done, second_done, third_done;

static void *first(void *result) {
    first_done = 1;
    return result;
}

static void *third(void *unused) {
    third_done = 1;
    return unused;
}

static void *second(void *unused) {
    void *result;
    pthread_t other;
    assert(pthread_join(one, &result) == 0 && result == (void *)5 && first_done);
    assert(pthread_join(mains, &result) == 0 && result == (void *)7);
    assert(pthread_create(&other, 0, third, 0) == 0 && pthread_detach(other) == 0);
    second_done = 1;
    return unused;
}

static void body(int me) { (void)me; }

static void last(void) { assert(first_done && second_done && third_done); }

int main(void) {
    pthread_t two;
    (void)start_all, (void)join_all, (void)body;
    mains = pthread_self();
    assert(atexit(last) == 0);
    assert(pthread_create(&one, 0, first, (void *)5) == 0 && pthread_create(&two, 0, second, 0) == 0);
    assert(pthread_detach(two) == 0);
#ifdef BUG /* a return from main waits for nobody */
    return 0;
#endif
    pthread_exit((void *)7);
}
