/* Semaphores of POSIX: 0, or -1 and a number in errno. */
#ifndef SEMAPHORE_H
#define SEMAPHORE_H
#include <time.h>
WATHREAD_BEGIN

#define SEM_VALUE_MAX 2147483647
#define SEM_FAILED ((sem_t *)0)

typedef struct { _Atomic unsigned value; } sem_t;

int sem_init(sem_t *s, int shared, unsigned value);
int sem_destroy(sem_t *s);
int sem_wait(sem_t *s);
int sem_trywait(sem_t *s); /* EAGAIN where it is 0 */
int sem_timedwait(sem_t *s, const struct timespec *until); /* ETIMEDOUT, only where all threads are asleep */
static inline int sem_clockwait(sem_t *s, clockid_t clock, const struct timespec *until) {
    (void)clock;
    return sem_timedwait(s, until);
}
int sem_post(sem_t *s); /* EOVERFLOW where there are SEM_VALUE_MAX */
int sem_getvalue(sem_t *s, int *value);

#define WATHREAD_NO \
    __attribute__((unavailable("wathread has no semaphores with a name, since there is one process: use sem_init")))
WATHREAD_NO sem_t *sem_open(const char *name, int flags, ...);
WATHREAD_NO int sem_close(sem_t *s);
WATHREAD_NO int sem_unlink(const char *name);
#undef WATHREAD_NO
WATHREAD_END

#endif
