#ifndef SCHED_H
#define SCHED_H
#include <time.h>
WATHREAD_BEGIN

/* Does nothing: any thread may come next at any time. */
static inline int sched_yield(void) { return 0; }

/* The names alone: there are no priorities. */
enum { SCHED_OTHER, SCHED_FIFO, SCHED_RR };
struct sched_param { int sched_priority; };
#define WATHREAD_NO __attribute__((unavailable("wathread has no priorities: any thread may come next at any time")))
WATHREAD_NO int sched_setscheduler(pid_t process, int policy, const struct sched_param *param);
WATHREAD_NO int sched_getscheduler(pid_t process);
WATHREAD_NO int sched_setparam(pid_t process, const struct sched_param *param);
WATHREAD_NO int sched_getparam(pid_t process, struct sched_param *param);
WATHREAD_NO int sched_rr_get_interval(pid_t process, struct timespec *time);
WATHREAD_NO int sched_get_priority_max(int policy);
WATHREAD_NO int sched_get_priority_min(int policy);
#undef WATHREAD_NO
WATHREAD_END

#endif
