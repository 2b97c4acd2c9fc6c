/* A semaphore that has as many as it may: a post is refused, but where one was taken before. And a request that the pool
   can't serve leaves it to others. */
#include "common.h"
#include <semaphore.h>
#include <stdlib.h>

static sem_t semaphore;
static _Atomic int posted;

static void body(int me) {
    if (me == 0)
        assert(sem_trywait(&semaphore) == 0);
    else if (sem_post(&semaphore) == 0)
        ++posted;
    else
        assert(errno == EOVERFLOW);
    void *large = malloc(600), *small = malloc(20); /* of 1024: one large block, or none */
    assert(small && (!large || me >= 0));
}

int main(void) {
    int value;
    assert(sem_init(&semaphore, 0, SEM_VALUE_MAX) == 0 && sem_post(&semaphore) == -1 && errno == EOVERFLOW);
    assert(malloc(200) && !malloc(900) && errno == ENOMEM);
    start_all();
    join_all();
    sem_getvalue(&semaphore, &value);
    assert(value == SEM_VALUE_MAX - 1 + posted && posted <= 1);
    assert(malloc(20));
    return 0;
}
