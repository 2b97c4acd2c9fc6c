/* A semaphore that lets one in guards a plain counter; by another one `main` waits until all have been there. */
#include "common.h"
#include <semaphore.h>

static sem_t semaphore, done;
static int sum;

static void body(int me) {
    (void)me;
    for (int i = 0; i < R; i++) {
        sem_wait(&semaphore);
        sum++;
        sem_post(&semaphore);
    }
    sem_post(&done);
}

int main(void) {
#ifdef BUG /* it lets two in */
    sem_init(&semaphore, 0, 2);
#else
    sem_init(&semaphore, 0, 1);
#endif
    sem_init(&done, 0, 0);
    start_all();
    for (int i = 0; i < N; i++)
        sem_wait(&done);
    assert(sum == N * R);
    join_all();
    return sum;
}
