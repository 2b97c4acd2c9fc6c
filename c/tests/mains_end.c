/* main ends by pthread_exit: what is pushed there is called, and what its keys call, and the others go on behind it. */
#include "common.h"
#include <semaphore.h>

static pthread_key_t key;
static sem_t open;

static void body(int me) {
    (void)me;
    assert(sem_wait(&open) == 0);
}

static void let_in(void *sem) { sem_post(sem); }

int main(void) {
    sem_init(&open, 0, 0);
    assert(pthread_key_create(&key, let_in) == 0 && pthread_setspecific(key, &open) == 0);
    start_all();
    (void)join_all;
#ifdef BUG /* a return from main calls neither */
    return 0;
#endif
    pthread_cleanup_push(let_in, &open);
    pthread_exit(0);
    pthread_cleanup_pop(0);
}
