/* Sleeping, which returns at once (time.h), and the end. There are no files and no processes. */
#ifndef UNISTD_H
#define UNISTD_H
#include <sys/types.h>
WATHREAD_BEGIN

#define STDIN_FILENO 0
#define STDOUT_FILENO 1
#define STDERR_FILENO 2
#define _SC_PAGESIZE 30
#define _SC_NPROCESSORS_CONF 83
#define _SC_NPROCESSORS_ONLN 84

unsigned sleep(unsigned seconds);
int usleep(unsigned microseconds);
WATHREAD_LEAVES void _exit(int status);                /* stdlib.h */
ssize_t write(int file, const void *from, size_t n);   /* stays in the memory (stdio.h) */
long sysconf(int name);                                /* processors: as many as --threads says */

/* Linux's futex alone, as SYS_futex of sys/syscall.h: its waits, for a time or until one, and its wakes; of all who wait, so
   that the set is FUTEX_BITSET_MATCH_ANY. What else is asked for traps. */
long syscall(long number, ...);

/* By single letters. main has no words, so that it is -1 there. */
extern char *optarg;
extern int optind, opterr, optopt;
int getopt(int count, char *const words[], const char *letters);

#define WATHREAD_NO __attribute__((unavailable("wathread has no processes, files or input: a module is one program, alone")))
WATHREAD_NO pid_t fork(void);
WATHREAD_NO pid_t getpid(void);
WATHREAD_NO pid_t getppid(void);
WATHREAD_NO int execve(const char *path, char *const words[], char *const environment[]);
WATHREAD_NO int pipe(int files[2]);
WATHREAD_NO int close(int file);
WATHREAD_NO ssize_t read(int file, void *to, size_t n);
WATHREAD_NO unsigned alarm(unsigned seconds);
WATHREAD_NO int pause(void);
#undef WATHREAD_NO
WATHREAD_END

#endif
