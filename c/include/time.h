/* The clock stands still while some thread is awake. A wait that ends by its time moves it on to its deadline, which comes
   only where all threads are asleep. For a thread that has looked at it, it also goes on by what that thread sleeps. So a
   loop until some time ends where it sleeps, and else goes round for ever. All clocks are one. */
#ifndef TIME_H
#define TIME_H
#include <sys/types.h>
WATHREAD_BEGIN

struct timespec {
    time_t tv_sec;
    long tv_nsec;
};

struct tm {
    int tm_sec, tm_min, tm_hour, tm_mday, tm_mon, tm_year, tm_wday, tm_yday, tm_isdst;
};

#define CLOCK_REALTIME 0
#define CLOCK_MONOTONIC 1
#define CLOCK_PROCESS_CPUTIME_ID 2
#define CLOCK_THREAD_CPUTIME_ID 3
#define CLOCK_MONOTONIC_RAW 4
#define CLOCKS_PER_SEC 1000000
#define TIME_UTC 1
#define TIMER_ABSTIME 1

int clock_gettime(clockid_t clock, struct timespec *t); /* 1,000,000,000 seconds at first */
int clock_getres(clockid_t clock, struct timespec *t);
int timespec_get(struct timespec *t, int base);
time_t time(time_t *t);
clock_t clock(void);

#define WATHREAD_NO __attribute__((unavailable("wathread has no calendar: print what time() says, in seconds")))
WATHREAD_NO time_t mktime(struct tm *t);
WATHREAD_NO struct tm *gmtime(const time_t *t);
WATHREAD_NO struct tm *localtime(const time_t *t);
WATHREAD_NO struct tm *gmtime_r(const time_t *__restrict t, struct tm *__restrict to);
WATHREAD_NO struct tm *localtime_r(const time_t *__restrict t, struct tm *__restrict to);
WATHREAD_NO char *asctime(const struct tm *t);
WATHREAD_NO char *ctime(const time_t *t);
WATHREAD_NO size_t strftime(char *__restrict to, size_t n, const char *__restrict text, const struct tm *__restrict t);
WATHREAD_NO double difftime(time_t a, time_t b);
#undef WATHREAD_NO

/* They return at once: any thread may come next behind a sleep, as at any time, and no sleep is long enough. */
int nanosleep(const struct timespec *time, struct timespec *left);
int clock_nanosleep(clockid_t clock, int flags, const struct timespec *time, struct timespec *left);
WATHREAD_END

#endif
