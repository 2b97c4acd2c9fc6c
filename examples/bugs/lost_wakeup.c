/* Lost wake-up: who waits looks at the flag before it takes the mutex. Where the flag is set and signalled in between, it
   sleeps for good. */
#include "two.h"

static pthread_mutex_t mutex = PTHREAD_MUTEX_INITIALIZER;
static pthread_cond_t set = PTHREAD_COND_INITIALIZER;
static _Atomic int flag;

static void *waiter(void *arg) {
#ifdef REPAIRED
    pthread_mutex_lock(&mutex);
    while (!flag)
        pthread_cond_wait(&set, &mutex);
    pthread_mutex_unlock(&mutex);
#else
    if (!flag) {
        pthread_mutex_lock(&mutex);
        pthread_cond_wait(&set, &mutex);
        pthread_mutex_unlock(&mutex);
    }
#endif
    return arg;
}

static void *setter(void *arg) {
    pthread_mutex_lock(&mutex);
    flag = 1;
    pthread_cond_signal(&set);
    pthread_mutex_unlock(&mutex);
    return arg;
}

int main(void) {
    RUN(waiter, setter);
    return 0;
}
