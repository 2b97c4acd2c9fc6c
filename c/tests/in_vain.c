/* What fails for nothing by one word of --spurious alone: WAY 0 waits, 1 trials, 2 weak compare-exchanges, 3 waits for a
   time, 4 malloc. */
#include "common.h"
#include <semaphore.h>
#include <stdlib.h>
#include <time.h>

#ifndef WAY
#define WAY 0
#endif

static pthread_mutex_t mutex = PTHREAD_MUTEX_INITIALIZER;
static pthread_cond_t condition = PTHREAD_COND_INITIALIZER;
static pthread_rwlock_t lock = PTHREAD_RWLOCK_INITIALIZER;
static sem_t sem;
static int come;

static void body(int me) {
    (void)me;
    pthread_mutex_lock(&mutex);
    come++;
    pthread_cond_signal(&condition);
    pthread_mutex_unlock(&mutex);
    sem_post(&sem);
}

int main(void) {
    struct timespec late = {2000000000, 0};
    _Atomic int word = 0;
    int had = 0;
    sem_init(&sem, 0, 0);
    start_all();
    pthread_mutex_lock(&mutex);
    while (WAY == 0 && !come) {
        pthread_cond_wait(&condition, &mutex);
        assert(come);
    }
    pthread_mutex_unlock(&mutex);
    if (WAY == 3)
        assert(!sem_timedwait(&sem, &late) && !sem_post(&sem));
    join_all();
    if (WAY == 1)
        assert(!pthread_mutex_trylock(&mutex) && !pthread_rwlock_trywrlock(&lock) && !sem_trywait(&sem));
    if (WAY == 2)
        assert(__c11_atomic_compare_exchange_weak(&word, &had, 1, __ATOMIC_SEQ_CST, __ATOMIC_SEQ_CST));
    if (WAY == 4)
        assert(malloc(8) && aligned_alloc(64, 64));
    return 0;
}
