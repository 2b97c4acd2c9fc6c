/* Who tries and gets a lock is alone in there, and who doesn't get it goes on; in the end all are free. */
#include "common.h"
#include <sched.h>
#include <semaphore.h>

static pthread_mutex_t mutex = PTHREAD_MUTEX_INITIALIZER;
static pthread_rwlock_t lock = PTHREAD_RWLOCK_INITIALIZER;
static pthread_spinlock_t spin;
static sem_t semaphore;
static volatile int in_mutex, in_spin; /* how many are in there */

static void enter(volatile int *inside) {
    ++*inside;
    assert(*inside == 1);
    --*inside;
}

static void body(int me) {
    if (pthread_mutex_trylock(&mutex) == 0) {
        enter(&in_mutex);
        pthread_mutex_unlock(&mutex);
    }
    if (me == 0 && pthread_rwlock_trywrlock(&lock) == 0) {
        assert(pthread_rwlock_tryrdlock(&lock) == EBUSY);
        pthread_rwlock_unlock(&lock);
    } else if (me != 0 && pthread_rwlock_tryrdlock(&lock) == 0) {
        assert(pthread_rwlock_trywrlock(&lock) == EBUSY);
        pthread_rwlock_unlock(&lock);
    }
#ifdef BUG /* who doesn't get it enters too */
    if (pthread_spin_trylock(&spin) == EBUSY || 1) {
#else
    if (pthread_spin_trylock(&spin) == 0) {
#endif
        enter(&in_spin);
        pthread_spin_unlock(&spin);
    }
    if (sem_trywait(&semaphore) == 0)
        sem_post(&semaphore);
    sched_yield();
}

int main(void) {
    int value;
    sem_init(&semaphore, 0, 1);
    start_all();
    join_all();
    assert(pthread_mutex_trylock(&mutex) == 0 && pthread_rwlock_trywrlock(&lock) == 0);
    assert(pthread_spin_trylock(&spin) == 0 && sem_getvalue(&semaphore, &value) == 0 && value == 1);
    return 0;
}
