#ifndef SYS_TIME_H
#define SYS_TIME_H
#include <time.h>
WATHREAD_BEGIN

struct timeval {
    time_t tv_sec;
    suseconds_t tv_usec;
};

int gettimeofday(struct timeval *t, void *zone);
WATHREAD_END

#endif
