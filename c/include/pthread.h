/* POSIX threads over wait and notify. Calls answer 0, or a number of errno.h. A wait for a time ends by its time only
   where all threads are asleep. Who uses what was destroyed traps in used_after_destroy, or races. */
#ifndef PTHREAD_H
#define PTHREAD_H
#include <errno.h>
#include <sched.h>
#include <time.h>
WATHREAD_BEGIN

typedef int pthread_t; /* the number that traces have: t1, t2 ..; main's is 64, and 0 is nobody's */
typedef struct { int detached; size_t stack, guard; } pthread_attr_t;
typedef struct { int kind; } pthread_mutexattr_t;
typedef struct { int clock; } pthread_condattr_t;
typedef struct { int unused; } pthread_rwlockattr_t, pthread_barrierattr_t;

/* 0 free, 1 held, 2 held and somebody may sleep; of another kind than the normal one: see lib/mutex.c */
typedef struct { _Atomic int state; int kind, depth; } pthread_mutex_t;
typedef struct { _Atomic int signals; _Atomic int *word; } pthread_cond_t; /* how many there were, here or at the word */
typedef struct { _Atomic int state; } pthread_rwlock_t; /* how many readers, or -1 for a writer */
typedef struct { struct place *place; unsigned size, first, round; } pthread_barrier_t; /* lib/condition.c */
typedef _Atomic int pthread_once_t; /* 0 at first, 1 running, 2 done */
typedef _Atomic int pthread_spinlock_t; /* 0 free, 1 held */
typedef int pthread_key_t;

enum { PTHREAD_MUTEX_NORMAL, PTHREAD_MUTEX_RECURSIVE, PTHREAD_MUTEX_ERRORCHECK, PTHREAD_MUTEX_DEFAULT = 0 };
#define PTHREAD_MUTEX_INITIALIZER {0}
#define PTHREAD_RECURSIVE_MUTEX_INITIALIZER_NP {0, PTHREAD_MUTEX_RECURSIVE, 0}
#define PTHREAD_ERRORCHECK_MUTEX_INITIALIZER_NP {0, PTHREAD_MUTEX_ERRORCHECK, 0}
#define PTHREAD_COND_INITIALIZER {0}
#define PTHREAD_RWLOCK_INITIALIZER {0}
#define PTHREAD_ONCE_INIT 0
#define PTHREAD_BARRIER_SERIAL_THREAD (-1)
#define PTHREAD_PROCESS_PRIVATE 0
#define PTHREAD_PROCESS_SHARED 1
#define PTHREAD_SCOPE_SYSTEM 0
#define PTHREAD_SCOPE_PROCESS 1
#define PTHREAD_CANCELED ((void *)-1)
#define PTHREAD_CREATE_JOINABLE 0
#define PTHREAD_CREATE_DETACHED 1
#define PTHREAD_STACK_MIN 64
#define PTHREAD_KEYS_MAX 128
#define PTHREAD_DESTRUCTOR_ITERATIONS 4

#define WATHREAD_NO(what) __attribute__((unavailable("wathread has no " what)))

/* EAGAIN where as many were started as --threads of wathread-cc says, but for those of the last quarter that the caller has
   joined: these begin anew, with their numbers. A thread that traps ends alone, and who joins it sleeps for good; a return
   from main ends that thread alone. */
int pthread_create(pthread_t *thread, const pthread_attr_t *attr, void *(*function)(void *), void *arg);
int pthread_join(pthread_t thread, void **result); /* EDEADLK for itself, ESRCH for what is no thread's number */
int pthread_tryjoin_np(pthread_t thread, void **result); /* EBUSY */
int pthread_timedjoin_np(pthread_t thread, void **result, const struct timespec *until);
int pthread_detach(pthread_t thread); /* does nothing; ESRCH for what is no thread's number */
pthread_t pthread_self(void);
int pthread_equal(pthread_t a, pthread_t b);
WATHREAD_LEAVES void pthread_exit(void *result); /* in main the others go on, and its answer is 0 */

/* They stand in one block, and pthread_exit calls what is pushed there. */
struct wathread_cleanup {
    void (*function)(void *);
    void *arg;
    struct wathread_cleanup *before;
};
extern _Thread_local struct wathread_cleanup *wathread_cleanups;
struct wathread_cleanup *__wathread_before_cleanup(void);
#define pthread_cleanup_push(function, arg)                                                  \
    do {                                                                                     \
        struct wathread_cleanup wathread_one = {function, arg, __wathread_before_cleanup()}; \
        wathread_cleanups = &wathread_one;
#define pthread_cleanup_pop(calls)                                                           \
        wathread_cleanups = wathread_one.before;                                             \
        if (calls)                                                                           \
            wathread_one.function(wathread_one.arg);                                         \
    } while (0)

/* They are kept, and change nothing: each stack has what --stack of wathread-cc says. */
int pthread_attr_init(pthread_attr_t *a);
int pthread_attr_destroy(pthread_attr_t *a);
int pthread_attr_setdetachstate(pthread_attr_t *a, int state);
int pthread_attr_getdetachstate(const pthread_attr_t *a, int *state);
int pthread_attr_setstacksize(pthread_attr_t *a, size_t size);
int pthread_attr_getstacksize(const pthread_attr_t *a, size_t *size);
int pthread_attr_setguardsize(pthread_attr_t *a, size_t size);
int pthread_attr_getguardsize(const pthread_attr_t *a, size_t *size);
int pthread_attr_setscope(pthread_attr_t *a, int scope); /* ENOTSUP for another one than PTHREAD_SCOPE_SYSTEM */
int pthread_attr_getscope(const pthread_attr_t *a, int *scope);
static inline int pthread_setname_np(pthread_t thread, const char *name) { (void)thread, (void)name; return 0; }

/* EBUSY where it is held, also to who destroys it. Unlocking traps where it isn't. One that is recursive, or looks for
   errors, answers EPERM to who unlocks what is another's, and the latter one EDEADLK to who has it already. */
int pthread_mutex_init(pthread_mutex_t *m, const pthread_mutexattr_t *attr);
int pthread_mutex_destroy(pthread_mutex_t *m);
int pthread_mutex_lock(pthread_mutex_t *m);
int pthread_mutex_trylock(pthread_mutex_t *m);
int pthread_mutex_timedlock(pthread_mutex_t *m, const struct timespec *until);
int pthread_mutex_unlock(pthread_mutex_t *m);
static inline int pthread_mutex_clocklock(pthread_mutex_t *m, clockid_t clock, const struct timespec *until) {
    (void)clock; /* all clocks are one */
    return pthread_mutex_timedlock(m, until);
}
int pthread_mutexattr_init(pthread_mutexattr_t *a);
int pthread_mutexattr_destroy(pthread_mutexattr_t *a);
int pthread_mutexattr_settype(pthread_mutexattr_t *a, int kind);
int pthread_mutexattr_gettype(const pthread_mutexattr_t *a, int *kind);

/* Waits may end without a signal, as everywhere. As soon as all are to be woken it may be destroyed. EAGAIN where 64 are
   there already, and barriers, that weren't destroyed; those of PTHREAD_COND_INITIALIZER don't count. */
int pthread_cond_init(pthread_cond_t *c, const pthread_condattr_t *attr);
int pthread_cond_destroy(pthread_cond_t *c);
int pthread_cond_wait(pthread_cond_t *c, pthread_mutex_t *m);
int pthread_cond_timedwait(pthread_cond_t *c, pthread_mutex_t *m, const struct timespec *until);
static inline int pthread_cond_clockwait(pthread_cond_t *c, pthread_mutex_t *m, clockid_t clock,
                                         const struct timespec *until) {
    (void)clock;
    return pthread_cond_timedwait(c, m, until);
}
int pthread_cond_signal(pthread_cond_t *c);
int pthread_cond_broadcast(pthread_cond_t *c);
static inline int pthread_condattr_init(pthread_condattr_t *a) { a->clock = CLOCK_REALTIME; return 0; }
static inline int pthread_condattr_destroy(pthread_condattr_t *a) { (void)a; return 0; }
static inline int pthread_condattr_getclock(const pthread_condattr_t *a, clockid_t *clock) { *clock = a->clock; return 0; }
static inline int pthread_condattr_setclock(pthread_condattr_t *a, clockid_t clock) { a->clock = clock; return 0; }

/* EBUSY where it is held. Unlocking traps where it isn't. Readers that come one after the other can keep a writer out. */
int pthread_rwlock_init(pthread_rwlock_t *l, const pthread_rwlockattr_t *attr);
int pthread_rwlock_destroy(pthread_rwlock_t *l);
int pthread_rwlock_rdlock(pthread_rwlock_t *l);
int pthread_rwlock_tryrdlock(pthread_rwlock_t *l);
int pthread_rwlock_timedrdlock(pthread_rwlock_t *l, const struct timespec *until);
int pthread_rwlock_wrlock(pthread_rwlock_t *l);
int pthread_rwlock_trywrlock(pthread_rwlock_t *l);
int pthread_rwlock_timedwrlock(pthread_rwlock_t *l, const struct timespec *until);
static inline int pthread_rwlock_clockrdlock(pthread_rwlock_t *l, clockid_t clock, const struct timespec *until) {
    (void)clock;
    return pthread_rwlock_timedrdlock(l, until);
}
static inline int pthread_rwlock_clockwrlock(pthread_rwlock_t *l, clockid_t clock, const struct timespec *until) {
    (void)clock;
    return pthread_rwlock_timedwrlock(l, until);
}
int pthread_rwlock_unlock(pthread_rwlock_t *l);
static inline int pthread_rwlockattr_init(pthread_rwlockattr_t *a) { a->unused = 0; return 0; }
static inline int pthread_rwlockattr_destroy(pthread_rwlockattr_t *a) { (void)a; return 0; }

/* EINVAL for a barrier of nobody; PTHREAD_BARRIER_SERIAL_THREAD for the last one that comes. More threads may come than
   make a round. As soon as one has passed and no other comes it may be destroyed. */
int pthread_barrier_init(pthread_barrier_t *b, const pthread_barrierattr_t *attr, unsigned size);
int pthread_barrier_destroy(pthread_barrier_t *b);
int pthread_barrier_wait(pthread_barrier_t *b);
static inline int pthread_barrierattr_init(pthread_barrierattr_t *a) { a->unused = 0; return 0; }
static inline int pthread_barrierattr_destroy(pthread_barrierattr_t *a) { (void)a; return 0; }

int pthread_once(pthread_once_t *once, void (*function)(void));

int pthread_spin_init(pthread_spinlock_t *l, int shared);
int pthread_spin_destroy(pthread_spinlock_t *l);
int pthread_spin_lock(pthread_spinlock_t *l);
int pthread_spin_trylock(pthread_spinlock_t *l); /* EBUSY */
int pthread_spin_unlock(pthread_spinlock_t *l);

/* EAGAIN behind the last of PTHREAD_KEYS_MAX: a number comes once. Destructors are called at the end of started threads. */
int pthread_key_create(pthread_key_t *key, void (*destructor)(void *));
int pthread_key_delete(pthread_key_t key);
int pthread_setspecific(pthread_key_t key, const void *value);
void *pthread_getspecific(pthread_key_t key);

/* They are kept for the thread, and change nothing: nobody cancels it. EINVAL for another state. */
#define PTHREAD_CANCEL_ENABLE 0
#define PTHREAD_CANCEL_DISABLE 1
#define PTHREAD_CANCEL_DEFERRED 0
#define PTHREAD_CANCEL_ASYNCHRONOUS 1
int pthread_setcancelstate(int state, int *before);
int pthread_setcanceltype(int type, int *before);
static inline void pthread_testcancel(void) {}

/* What isn't there, by nature. The names that such calls are given are there, so that the message is of the call. */
#define WATHREAD_CANCEL WATHREAD_NO("cancellation: let the thread look at a flag, and return from its function")
WATHREAD_CANCEL int pthread_cancel(pthread_t thread);
#define PTHREAD_INHERIT_SCHED 0
#define PTHREAD_EXPLICIT_SCHED 1
#define PTHREAD_PRIO_NONE 0
#define PTHREAD_PRIO_INHERIT 1
#define PTHREAD_PRIO_PROTECT 2
#define WATHREAD_RANK WATHREAD_NO("priorities: any thread may come next at any time")
WATHREAD_RANK int pthread_setschedparam(pthread_t thread, int policy, const struct sched_param *param);
WATHREAD_RANK int pthread_getschedparam(pthread_t thread, int *policy, struct sched_param *param);
WATHREAD_RANK int pthread_setschedprio(pthread_t thread, int priority);
WATHREAD_RANK int pthread_attr_setschedparam(pthread_attr_t *a, const struct sched_param *param);
WATHREAD_RANK int pthread_attr_getschedparam(const pthread_attr_t *a, struct sched_param *param);
WATHREAD_RANK int pthread_attr_setschedpolicy(pthread_attr_t *a, int policy);
WATHREAD_RANK int pthread_attr_getschedpolicy(const pthread_attr_t *a, int *policy);
WATHREAD_RANK int pthread_attr_setinheritsched(pthread_attr_t *a, int inherits);
WATHREAD_RANK int pthread_attr_getinheritsched(const pthread_attr_t *a, int *inherits);
WATHREAD_RANK int pthread_mutexattr_setprotocol(pthread_mutexattr_t *a, int protocol);
WATHREAD_RANK int pthread_mutexattr_getprotocol(const pthread_mutexattr_t *a, int *protocol);
WATHREAD_RANK int pthread_mutexattr_setprioceiling(pthread_mutexattr_t *a, int ceiling);
WATHREAD_RANK int pthread_mutexattr_getprioceiling(const pthread_mutexattr_t *a, int *ceiling);
WATHREAD_RANK int pthread_mutex_setprioceiling(pthread_mutex_t *m, int ceiling, int *before);
WATHREAD_RANK int pthread_mutex_getprioceiling(const pthread_mutex_t *m, int *ceiling);
WATHREAD_RANK int pthread_setconcurrency(int level);
WATHREAD_RANK int pthread_getconcurrency(void);
#define PTHREAD_MUTEX_STALLED 0
#define PTHREAD_MUTEX_ROBUST 1
#define WATHREAD_PROCESS WATHREAD_NO("processes: a module is one program, alone")
WATHREAD_PROCESS int pthread_atfork(void (*prepare)(void), void (*parent)(void), void (*child)(void));
WATHREAD_PROCESS int pthread_mutexattr_setpshared(pthread_mutexattr_t *a, int shared);
WATHREAD_PROCESS int pthread_mutexattr_getpshared(const pthread_mutexattr_t *a, int *shared);
WATHREAD_PROCESS int pthread_condattr_setpshared(pthread_condattr_t *a, int shared);
WATHREAD_PROCESS int pthread_condattr_getpshared(const pthread_condattr_t *a, int *shared);
WATHREAD_PROCESS int pthread_rwlockattr_setpshared(pthread_rwlockattr_t *a, int shared);
WATHREAD_PROCESS int pthread_rwlockattr_getpshared(const pthread_rwlockattr_t *a, int *shared);
WATHREAD_PROCESS int pthread_barrierattr_setpshared(pthread_barrierattr_t *a, int shared);
WATHREAD_PROCESS int pthread_barrierattr_getpshared(const pthread_barrierattr_t *a, int *shared);
#define WATHREAD_OWNER \
    WATHREAD_NO("robust mutexes: who waits for one whose owner has ended sleeps for good, and a search says so")
WATHREAD_OWNER int pthread_mutexattr_setrobust(pthread_mutexattr_t *a, int robust);
WATHREAD_OWNER int pthread_mutexattr_getrobust(const pthread_mutexattr_t *a, int *robust);
WATHREAD_OWNER int pthread_mutex_consistent(pthread_mutex_t *m);
#define WATHREAD_STACK WATHREAD_NO("stacks of a program's own: --stack of wathread-cc says how large each one is")
WATHREAD_STACK int pthread_attr_setstack(pthread_attr_t *a, void *from, size_t size);
WATHREAD_STACK int pthread_attr_getstack(const pthread_attr_t *a, void **from, size_t *size);
WATHREAD_NO("clocks of threads: there is one clock") int pthread_getcpuclockid(pthread_t thread, clockid_t *clock);
#undef WATHREAD_NO
#undef WATHREAD_CANCEL
#undef WATHREAD_RANK
#undef WATHREAD_PROCESS
#undef WATHREAD_OWNER
#undef WATHREAD_STACK
WATHREAD_END

#endif
