/* What is freed, destroyed or made anew while somebody may use it. With -DBUG nobody waits for those first. */
#include "common.h"
#include <semaphore.h>
#include <stdlib.h>

#ifndef WAY
#define WAY 0
#endif

static struct all {
    _Atomic int atomic;
    int plain;
    pthread_mutex_t mutex;
    pthread_cond_t condition;
    pthread_rwlock_t lock;
    pthread_spinlock_t spin;
    sem_t semaphore;
    pthread_barrier_t barrier;
} *all;

static void body(int me) {
    switch (me ? WAY : -1) {
    case 0: all->atomic++; break;
    case 1: all->plain++; break;
    case 2: pthread_mutex_lock(&all->mutex), pthread_mutex_unlock(&all->mutex); break;
    case 3: pthread_cond_signal(&all->condition); break;
    case 4: pthread_rwlock_rdlock(&all->lock), pthread_rwlock_unlock(&all->lock); break;
    case 5: pthread_spin_trylock(&all->spin); break;
    case 6: sem_post(&all->semaphore); break;
    case 7: pthread_barrier_wait(&all->barrier); break;
    case 8: pthread_mutex_lock(&all->mutex), pthread_mutex_unlock(&all->mutex); break;
    }
}

static void end(void) {
    switch (WAY) {
    case 2: pthread_mutex_destroy(&all->mutex); break;
    case 3: pthread_cond_destroy(&all->condition); break;
    case 4: pthread_rwlock_destroy(&all->lock); break;
    case 5: pthread_spin_destroy(&all->spin); break;
    case 6: sem_destroy(&all->semaphore); break;
    case 7: pthread_barrier_destroy(&all->barrier); break;
    case 8: pthread_mutex_init(&all->mutex, 0); break;
    default: free(all);
    }
}

int main(void) {
    all = calloc(1, sizeof *all);
    pthread_cond_init(&all->condition, 0);
    pthread_barrier_init(&all->barrier, 0, 1);
    start_all();
#ifdef BUG /* nobody waits for who uses it */
    end();
#endif
    join_all();
#ifndef BUG
    end();
#endif
    return 0;
}
