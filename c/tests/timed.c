/* Waits for a time: what nobody gives in time is ETIMEDOUT, and what is given is 0, however the threads go. */
#include "common.h"
#include <semaphore.h>

static pthread_mutex_t mutex = PTHREAD_MUTEX_INITIALIZER;
static pthread_cond_t condition = PTHREAD_COND_INITIALIZER;
static pthread_rwlock_t lock = PTHREAD_RWLOCK_INITIALIZER;
static sem_t semaphore, given;

static struct timespec in(int seconds) {
    struct timespec time;
    clock_gettime(CLOCK_REALTIME, &time);
    time.tv_sec += seconds;
    return time;
}

static void body(int me) {
    struct timespec soon = in(1);
    if (me == 0) {
        assert(pthread_mutex_timedlock(&mutex, &soon) == ETIMEDOUT);
        assert(pthread_rwlock_timedrdlock(&lock, &soon) == ETIMEDOUT); /* the time has come already */
    } else {
        assert(sem_timedwait(&semaphore, &soon) == -1 && errno == ETIMEDOUT);
        assert(pthread_rwlock_timedwrlock(&lock, &soon) == ETIMEDOUT);
    }
    sem_post(&given);
}

int main(void) {
    struct timespec later = {time(0) + 100, 0}, before = {5, 0}, wrong = {0, -1};
    pthread_mutex_lock(&mutex);
    pthread_rwlock_wrlock(&lock);
    start_all();
#ifndef BUG /* too short a time */
    for (int i = 0; i < N; i++)
        assert(sem_timedwait(&given, &later) == 0);
#endif
    assert(pthread_cond_timedwait(&condition, &mutex, &later) == ETIMEDOUT && time(0) >= later.tv_sec);
    assert(pthread_cond_timedwait(&condition, &mutex, &before) == ETIMEDOUT);
    assert(pthread_cond_timedwait(&condition, &mutex, &wrong) == EINVAL);
#ifdef BUG
    assert(sem_trywait(&given) == 0 && pthread_tryjoin_np(threads[N - 1], 0) == 0);
#endif
    join_all();
    assert(pthread_timedjoin_np(threads[0], 0, &later) == 0 && pthread_tryjoin_np(threads[0], 0) == 0);
    return 0;
}
