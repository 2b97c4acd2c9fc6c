/* There are no signals: what a thread blocks is kept for it, and nothing comes. Of the rest there are the names alone. */
#ifndef SIGNAL_H
#define SIGNAL_H
#include <sys/types.h>
WATHREAD_BEGIN

typedef int sig_atomic_t;
typedef unsigned long long sigset_t;

#define SIGHUP 1
#define SIGINT 2
#define SIGQUIT 3
#define SIGABRT 6
#define SIGKILL 9
#define SIGUSR1 10
#define SIGSEGV 11
#define SIGUSR2 12
#define SIGPIPE 13
#define SIGALRM 14
#define SIGTERM 15
#define SIG_BLOCK 0
#define SIG_UNBLOCK 1
#define SIG_SETMASK 2
#define SIG_DFL ((void (*)(int))0)
#define SIG_IGN ((void (*)(int))1)

static inline int sigemptyset(sigset_t *set) { *set = 0; return 0; }
static inline int sigfillset(sigset_t *set) { *set = ~0ull; return 0; }
int sigaddset(sigset_t *set, int number); /* EINVAL but for 1 to 64 */
int sigdelset(sigset_t *set, int number);
int sigismember(const sigset_t *set, int number);
int sigprocmask(int how, const sigset_t *set, sigset_t *before); /* -1, and EINVAL in errno, where there is no such way */
int pthread_sigmask(int how, const sigset_t *set, sigset_t *before); /* EINVAL */

#define WATHREAD_NO __attribute__((unavailable("wathread has no signals: nothing comes to a thread from outside")))
struct sigaction {
    void (*sa_handler)(int);
    sigset_t sa_mask;
    int sa_flags;
};
WATHREAD_NO int sigaction(int number, const struct sigaction *how, struct sigaction *before);
WATHREAD_NO void (*signal(int number, void (*function)(int)))(int);
WATHREAD_NO int raise(int number);
WATHREAD_NO int kill(pid_t process, int number);
WATHREAD_NO int pthread_kill(int thread, int number);
WATHREAD_NO int sigwait(const sigset_t *set, int *number);
#undef WATHREAD_NO
WATHREAD_END

#endif
