/* Threads of C11, most of them as names for those of POSIX. */
#ifndef THREADS_H
#define THREADS_H
#include <pthread.h>
WATHREAD_BEGIN

#ifndef __cplusplus
#define thread_local _Thread_local
#endif
#define ONCE_FLAG_INIT PTHREAD_ONCE_INIT
#define TSS_DTOR_ITERATIONS PTHREAD_DESTRUCTOR_ITERATIONS
enum { thrd_success, thrd_busy, thrd_error, thrd_nomem, thrd_timedout };
enum { mtx_plain, mtx_recursive, mtx_timed };
typedef pthread_t thrd_t;
typedef pthread_mutex_t mtx_t;
typedef pthread_cond_t cnd_t;
typedef pthread_once_t once_flag;
typedef pthread_key_t tss_t;
typedef int (*thrd_start_t)(void *);
typedef void (*tss_dtor_t)(void *);

/* A number of errno.h as one of threads.h. */
static inline int wathread_as_c11(int number) {
    return !number ? thrd_success : number == EBUSY ? thrd_busy : number == ETIMEDOUT ? thrd_timedout : thrd_error;
}

int thrd_create(thrd_t *thread, thrd_start_t function, void *arg); /* thrd_error where --threads are used up */
int thrd_join(thrd_t thread, int *result);
static inline int thrd_detach(thrd_t thread) { return pthread_detach(thread); }
static inline thrd_t thrd_current(void) { return pthread_self(); }
static inline int thrd_equal(thrd_t a, thrd_t b) { return pthread_equal(a, b); }
static inline void thrd_yield(void) {}
int thrd_sleep(const struct timespec *time, struct timespec *left); /* returns at once (time.h) */
WATHREAD_LEAVES void thrd_exit(int result);
int mtx_init(mtx_t *m, int kind);
static inline void mtx_destroy(mtx_t *m) { pthread_mutex_destroy(m); }
static inline int mtx_lock(mtx_t *m) { return wathread_as_c11(pthread_mutex_lock(m)); }
static inline int mtx_trylock(mtx_t *m) { return wathread_as_c11(pthread_mutex_trylock(m)); }
static inline int mtx_timedlock(mtx_t *m, const struct timespec *until) {
    return wathread_as_c11(pthread_mutex_timedlock(m, until));
}
static inline int mtx_unlock(mtx_t *m) { return wathread_as_c11(pthread_mutex_unlock(m)); }
static inline int cnd_init(cnd_t *c) { return pthread_cond_init(c, 0) ? thrd_nomem : thrd_success; }
static inline void cnd_destroy(cnd_t *c) { pthread_cond_destroy(c); }
static inline int cnd_wait(cnd_t *c, mtx_t *m) { return wathread_as_c11(pthread_cond_wait(c, m)); }
static inline int cnd_timedwait(cnd_t *c, mtx_t *m, const struct timespec *until) {
    return wathread_as_c11(pthread_cond_timedwait(c, m, until));
}
static inline int cnd_signal(cnd_t *c) { return pthread_cond_signal(c); }
static inline int cnd_broadcast(cnd_t *c) { return pthread_cond_broadcast(c); }
static inline void call_once(once_flag *once, void (*function)(void)) { pthread_once(once, function); }
static inline int tss_create(tss_t *key, tss_dtor_t destructor) { return wathread_as_c11(pthread_key_create(key, destructor)); }
static inline void tss_delete(tss_t key) { pthread_key_delete(key); }
static inline int tss_set(tss_t key, void *value) { return wathread_as_c11(pthread_setspecific(key, value)); }
static inline void *tss_get(tss_t key) { return pthread_getspecific(key); }
WATHREAD_END

#endif
