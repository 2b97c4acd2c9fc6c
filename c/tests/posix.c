/* Each function that the table of README.md has of POSIX threads and C11, called once: what it answers, and that it is there.
   With two threads where it takes two. */
#include "common.h"
#include <sched.h>
#include <semaphore.h>
#include <signal.h>
#include <threads.h>
#include <time.h>

#define GOES(call) assert((call) == 0)

static pthread_mutex_t mutex;
static pthread_cond_t cond;
static pthread_rwlock_t lock;
static pthread_spinlock_t spin;
static pthread_barrier_t barrier;
static pthread_once_t once = PTHREAD_ONCE_INIT;
static pthread_key_t key;
static sem_t sem;
static int calls, goes;

static void count(void) { calls++; }
static void clean_up(void *arg) { calls += (int)arg; }
static void forget(void *value) { calls += (int)value; }

static struct timespec in_a_second(clockid_t clock) {
    struct timespec t;
    GOES(clock_gettime(clock, &t));
    t.tv_sec++;
    return t;
}

static void body(int me) {
    GOES(pthread_setspecific(key, (void *)1));
    assert(pthread_getspecific(key) == (void *)1 && pthread_equal(pthread_self(), 1) && me == 0);
    pthread_mutex_lock(&mutex);
    goes = 1;
    pthread_cond_signal(&cond);
    pthread_mutex_unlock(&mutex);
    int last = pthread_barrier_wait(&barrier);
    assert(!last || last == PTHREAD_BARRIER_SERIAL_THREAD);
    pthread_cleanup_push(clean_up, (void *)10);
    pthread_cleanup_push(clean_up, (void *)20);
    pthread_cleanup_pop(1);
    pthread_exit((void *)me);
    pthread_cleanup_pop(0);
}

static void attributes(void) {
    pthread_attr_t attr;
    pthread_mutexattr_t of_mutex;
    pthread_condattr_t of_cond;
    pthread_rwlockattr_t of_lock;
    pthread_barrierattr_t of_barrier;
    clockid_t clock;
    size_t size;
    int value;
    GOES(pthread_attr_init(&attr));
    GOES(pthread_attr_setdetachstate(&attr, PTHREAD_CREATE_JOINABLE) || pthread_attr_getdetachstate(&attr, &value));
    GOES(pthread_attr_setstacksize(&attr, 8192) || pthread_attr_getstacksize(&attr, &size));
    assert(value == PTHREAD_CREATE_JOINABLE && size == 8192);
    GOES(pthread_attr_setguardsize(&attr, 4096) || pthread_attr_getguardsize(&attr, &size));
    GOES(pthread_attr_setscope(&attr, PTHREAD_SCOPE_SYSTEM) || pthread_attr_getscope(&attr, &value));
    assert(size == 4096 && value == PTHREAD_SCOPE_SYSTEM);
    GOES(pthread_condattr_init(&of_cond) || pthread_condattr_setclock(&of_cond, CLOCK_MONOTONIC));
    GOES(pthread_condattr_getclock(&of_cond, &clock));
    GOES(pthread_mutexattr_init(&of_mutex) || pthread_mutexattr_settype(&of_mutex, PTHREAD_MUTEX_NORMAL));
    GOES(pthread_mutexattr_gettype(&of_mutex, &value) || pthread_rwlockattr_init(&of_lock));
    assert(clock == CLOCK_MONOTONIC && value == PTHREAD_MUTEX_NORMAL);
    GOES(pthread_mutex_init(&mutex, &of_mutex) || pthread_cond_init(&cond, &of_cond) || pthread_rwlock_init(&lock, &of_lock));
    GOES(pthread_barrierattr_init(&of_barrier) || pthread_barrier_init(&barrier, &of_barrier, 2));
    GOES(pthread_spin_init(&spin, PTHREAD_PROCESS_PRIVATE) || pthread_key_create(&key, forget) || sem_init(&sem, 0, 4));
    GOES(pthread_condattr_destroy(&of_cond) || pthread_mutexattr_destroy(&of_mutex) || pthread_rwlockattr_destroy(&of_lock));
    GOES(pthread_barrierattr_destroy(&of_barrier));
    GOES(pthread_create(&threads[0], &attr, thread, (void *)0) || pthread_attr_destroy(&attr));
}

static void locks(void) {
    struct timespec until = in_a_second(CLOCK_REALTIME);
    int value;
    GOES(pthread_rwlock_rdlock(&lock) || pthread_rwlock_tryrdlock(&lock) || pthread_rwlock_timedrdlock(&lock, &until));
    GOES(pthread_rwlock_clockrdlock(&lock, CLOCK_MONOTONIC, &until));
    assert(pthread_rwlock_trywrlock(&lock) == EBUSY);
    for (int i = 0; i < 4; i++)
        GOES(pthread_rwlock_unlock(&lock));
    GOES(pthread_rwlock_wrlock(&lock) || pthread_rwlock_unlock(&lock) || pthread_rwlock_timedwrlock(&lock, &until));
    GOES(pthread_rwlock_unlock(&lock) || pthread_rwlock_clockwrlock(&lock, CLOCK_MONOTONIC, &until));
    GOES(pthread_rwlock_unlock(&lock) || pthread_rwlock_destroy(&lock));
    GOES(pthread_spin_lock(&spin) || pthread_spin_trylock(&spin) != EBUSY || pthread_spin_unlock(&spin));
    GOES(pthread_spin_destroy(&spin) || pthread_once(&once, count) || pthread_once(&once, count));
    GOES(sem_wait(&sem) || sem_trywait(&sem) || sem_timedwait(&sem, &until) || sem_clockwait(&sem, CLOCK_MONOTONIC, &until));
    assert(sem_trywait(&sem) == -1 && errno == EAGAIN && sem_post(&sem) == 0 && sem_getvalue(&sem, &value) == 0);
    assert(value == 1 && calls == 1 && sem_destroy(&sem) == 0 && sched_yield() == 0);
}

static void conditions(void) {
    struct timespec until = in_a_second(CLOCK_MONOTONIC);
    GOES(pthread_mutex_trylock(&mutex) || pthread_mutex_unlock(&mutex) || pthread_mutex_timedlock(&mutex, &until));
    GOES(pthread_mutex_unlock(&mutex) || pthread_mutex_clocklock(&mutex, CLOCK_MONOTONIC, &until));
    assert(pthread_cond_timedwait(&cond, &mutex, &until) == ETIMEDOUT);
    assert(pthread_cond_clockwait(&cond, &mutex, CLOCK_MONOTONIC, &until) == ETIMEDOUT);
    GOES(pthread_mutex_unlock(&mutex) || pthread_cond_broadcast(&cond) || pthread_cond_destroy(&cond));
    GOES(pthread_mutex_destroy(&mutex) || pthread_barrier_destroy(&barrier) || pthread_key_delete(key));
}

static void masks(void) {
    sigset_t one, before;
    GOES(sigemptyset(&one) || sigaddset(&one, SIGTERM) || pthread_sigmask(SIG_BLOCK, &one, &before));
    assert(before == 0 && sigismember(&one, SIGTERM) == 1 && sigismember(&one, SIGINT) == 0);
    GOES(sigfillset(&one) || sigdelset(&one, SIGINT) || sigprocmask(SIG_UNBLOCK, &one, &before));
    assert(sigismember(&before, SIGTERM) == 1 && sigaddset(&one, 65) == -1 && errno == EINVAL);
    int was, type;
    GOES(pthread_setcancelstate(PTHREAD_CANCEL_DISABLE, &was) || pthread_setcanceltype(PTHREAD_CANCEL_DEFERRED, &type));
    assert(was == PTHREAD_CANCEL_ENABLE && pthread_setcancelstate(was, &was) == 0 && was == PTHREAD_CANCEL_DISABLE);
    assert(type == PTHREAD_CANCEL_DEFERRED && pthread_setcanceltype(2, 0) == EINVAL);
    pthread_testcancel();
    GOES(pthread_sigmask(SIG_SETMASK, 0, &before));
    assert(before == 0 && pthread_sigmask(3, &one, 0) == EINVAL && sigprocmask(3, &one, 0) == -1);
}

static int ends(void *arg) {
    thrd_yield();
    thrd_exit((int)arg);
}

static void of_c11(void) {
    struct timespec until = in_a_second(CLOCK_REALTIME);
    once_flag flag = ONCE_FLAG_INIT;
    thrd_t one;
    mtx_t m;
    cnd_t c;
    tss_t value;
    int found;
    assert(timespec_get(&until, TIME_UTC) == TIME_UTC && timespec_get(&until, 7) == 0);
    until.tv_sec++;
    GOES(mtx_init(&m, mtx_timed | mtx_recursive) || cnd_init(&c) || tss_create(&value, 0) || tss_set(value, &m));
    GOES(mtx_lock(&m) || mtx_trylock(&m) || mtx_timedlock(&m, &until) || mtx_unlock(&m) || mtx_unlock(&m));
    assert(cnd_timedwait(&c, &m, &until) == thrd_timedout && tss_get(value) == &m);
    GOES(cnd_signal(&c) || cnd_broadcast(&c) || mtx_unlock(&m));
    GOES(thrd_create(&one, ends, (void *)6) || thrd_join(one, &found));
    assert(found == 6 && !thrd_equal(thrd_current(), 0));
    GOES(thrd_create(&one, ends, 0) || thrd_detach(one) || thrd_sleep(&(struct timespec){0, 5}, 0));
    call_once(&flag, count);
    cnd_destroy(&c), mtx_destroy(&m), tss_delete(value);
}

int main(void) {
    attributes();
    pthread_mutex_lock(&mutex);
    while (!goes)
        pthread_cond_wait(&cond, &mutex);
    pthread_mutex_unlock(&mutex);
    int last = pthread_barrier_wait(&barrier);
    assert(!last || last == PTHREAD_BARRIER_SERIAL_THREAD);
    GOES(pthread_setname_np(threads[0], "one"));
    void *result = &result;
    struct timespec until = in_a_second(CLOCK_REALTIME);
    if (pthread_tryjoin_np(threads[0], &result) == EBUSY)
        GOES(pthread_timedjoin_np(threads[0], &result, &until));
    GOES(pthread_join(threads[0], &result) || pthread_detach(threads[0]) || (int)result);
    assert(calls == 31);
    calls = 0;
    locks();
    conditions();
    masks();
    of_c11();
    (void)start_all, (void)join_all;
    return calls - 2;
}
