/* Mutexes that know who holds them: one that its thread may lock again, and one that looks for errors. */
#include "common.h"

static pthread_mutex_t again, careful = PTHREAD_ERRORCHECK_MUTEX_INITIALIZER_NP;
static pthread_cond_t cond = PTHREAD_COND_INITIALIZER;
static int sum;

static void body(int me) {
    pthread_mutex_t *mutex = me & 1 ? &again : &again;
    pthread_mutex_lock(mutex);
    assert(pthread_mutex_lock(mutex) == 0 && pthread_mutex_trylock(mutex) == 0);
    sum++;
    pthread_mutex_unlock(mutex);
    pthread_mutex_unlock(mutex);
#ifdef BUG /* one unlock more */
    pthread_mutex_unlock(mutex);
#endif
    sum++;
    assert(pthread_mutex_unlock(mutex) == 0);
    assert(pthread_mutex_unlock(mutex) == EPERM || me < 0);
}

static void look_for_errors(void) {
    assert(pthread_mutex_lock(&careful) == 0 && pthread_mutex_lock(&careful) == EDEADLK);
    assert(pthread_mutex_trylock(&careful) == EBUSY && pthread_mutex_destroy(&careful) == EBUSY);
    assert(pthread_mutex_unlock(&careful) == 0 && pthread_mutex_unlock(&careful) == EPERM);
    assert(pthread_cond_wait(&cond, &careful) == EPERM);
    assert(pthread_mutex_destroy(&careful) == 0);
}

int main(void) {
    pthread_mutexattr_t attr;
    pthread_mutexattr_init(&attr);
    assert(pthread_mutexattr_settype(&attr, PTHREAD_MUTEX_RECURSIVE) == 0);
    pthread_mutex_init(&again, &attr);
    look_for_errors();
    start_all();
    join_all();
    assert(sum == 2 * N);
    return sum;
}
