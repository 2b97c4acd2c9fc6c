#ifndef SYS_TYPES_H
#define SYS_TYPES_H
#include <stddef.h>
#include <stdint.h>
#include <wathread_c.h>

typedef long long time_t, off_t, clock_t;
typedef int ssize_t, pid_t, clockid_t, mode_t;
typedef unsigned uid_t, gid_t, useconds_t;
typedef long suseconds_t;

#endif
