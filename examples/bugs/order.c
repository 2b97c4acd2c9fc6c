/* Order violation: a thread uses what main sets only after it has started the thread. */
#include <assert.h>
#include <pthread.h>
#include <stddef.h>

static int settings = 7;
static int *_Atomic current;

static void *worker(void *arg) {
    int *mine = current;
    assert(mine != NULL && *mine == 7);
    return arg;
}

int main(void) {
    pthread_t thread;
#ifdef REPAIRED
    current = &settings;
    pthread_create(&thread, 0, worker, 0);
#else
    pthread_create(&thread, 0, worker, 0);
    current = &settings;
#endif
    pthread_join(thread, 0);
    return 0;
}
