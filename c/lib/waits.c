/* What the waits of the library have in common: their time, what fails for nothing, and the joins. */

/* ---- Time stands still while somebody is awake. A wait that ends by its time ends at its deadline, and the clock goes
   on to there. A timeout is given as the deadline itself: of those that sleep the machine wakes the least ---- */

enum { NANOSECONDS = 1000000000 };
static const int64_t FOR_EVER = -1, BEGIN = (int64_t)NANOSECONDS * NANOSECONDS;
static _Atomic int64_t now = BEGIN;

/* How long a thread slept since it looked at a clock, which goes on for it alone. Before that it isn't counted: a loop that
   sleeps until something happens has no more states than one that doesn't. */
static _Thread_local int64_t slept;
static _Thread_local int has_looked;

static int64_t time_now(void) {
    has_looked = 1;
    return now + slept;
}

static int64_t as_nanoseconds(const struct timespec *t) {
    if (t->tv_sec < 0)
        return 0;
    return t->tv_sec > INT64_MAX / NANOSECONDS / 4 ? INT64_MAX / 4 : t->tv_sec * NANOSECONDS + t->tv_nsec;
}

/* A deadline by the clock of all. */
static int64_t deadline_of(const struct timespec *t) {
    int64_t deadline = as_nanoseconds(t) - slept;
    return deadline > 0 ? deadline : 0;
}

static void sleep_for(int64_t nanoseconds) {
    if (has_looked && nanoseconds > 0)
        slept += nanoseconds;
}

static int is_wrong(const struct timespec *t) { return t->tv_nsec < 0 || t->tv_nsec >= NANOSECONDS; }

/* ---- With --spurious a thread of the library's own sets this word for a while, once, at any time: as long as it is
   set, what was asked for fails for nothing, wherever POSIX permits it ---- */

enum in_vain { WAITS = 1, TRIALS = 2, EXCHANGES = 4, TIMEOUTS = 8, MALLOC = 16 };

#ifdef SPURIOUS
static _Atomic int luck_is_out;

static void change_luck(int unused) {
    (void)unused;
    luck_is_out = 1;
    luck_is_out = 0;
}

static void forget_luck(void) { *(int *)&luck_is_out = 0; } /* of a call before */

static int fails_for_nothing(enum in_vain what) { return (SPURIOUS) & what && luck_is_out; }
#else
static int fails_for_nothing(enum in_vain what) { (void)what; return 0; }
#endif
int __wathread_fails(void) { return fails_for_nothing(EXCHANGES); } /* what a weak compare-exchange asks (blocks.py) */

/* Sleeps while *word is value. Answers 1 where the deadline has come: then no more is asked. */
static inline __attribute__((always_inline)) int sleep_while(_Atomic int *word, int value, int64_t deadline) {
    if (deadline < 0) {
        wait_while(word, value);
        return 0;
    }
    if (deadline <= BEGIN || deadline <= now || fails_for_nothing(TIMEOUTS))
        return 1;
    if (wait_while_for(word, value, deadline) != 2)
        return 0;
    for (int64_t then = now; then < deadline;)
        if (atomic_compare_exchange_strong(&now, &then, deadline))
            break;
    return 1;
}

/* ---- Linux's futex ---- */

static long wait_by_futex(_Atomic int *word, int value, int64_t deadline) {
    if (fails_for_nothing(WAITS))
        return errno = EINTR, -1;
    if (deadline < 0)
        return wait_while(word, value) == 1 ? errno = EAGAIN, -1 : 0;
    return sleep_while(word, value, deadline) ? errno = ETIMEDOUT, -1 : 0;
}

static __attribute__((noinline)) _Noreturn void no_such_syscall(void) { __builtin_trap(); }

/* FUTEX_WAIT has how long to wait, and FUTEX_WAIT_BITSET until when. */
long syscall(long number, ...) {
    va_list list;
    va_start(list, number);
    _Atomic int *word = va_arg(list, _Atomic int *);
    unsigned does = va_arg(list, unsigned) & ~(FUTEX_PRIVATE_FLAG | FUTEX_CLOCK_REALTIME), value = va_arg(list, unsigned);
    if (number != SYS_futex)
        no_such_syscall();
    if (does == FUTEX_WAKE || does == FUTEX_WAKE_BITSET) {
        va_end(list);
        return notify_some(word, (int)value);
    }
    const struct timespec *time = va_arg(list, const struct timespec *);
    va_end(list);
    if (does != FUTEX_WAIT && does != FUTEX_WAIT_BITSET)
        no_such_syscall();
    if (time && is_wrong(time))
        return errno = EINVAL, -1;
    return wait_by_futex(word, value, !time ? FOR_EVER : does == FUTEX_WAIT ? now + as_nanoseconds(time) : deadline_of(time));
}

/* ---- Joins ---- */

#ifdef ORDERS
static uint32_t result_of(int thread) {
    unsigned result;
    orders_joins(thread, &result, -1);
    return result;
}
#else
static uint32_t result_of(int thread) {
    uint64_t end;
    do
        wait_while(&ends[thread], RUNS);
    while (!(end = ends[thread]));
    if (stays(thread))
        joined |= 1ull << thread;
    return end;
}
#endif

void thread_join(int thread) { result_of(thread); }

static int is_no_other(pthread_t thread) {
    return is_nobodys(thread) ? ESRCH : number_of(thread) == thread_self() ? EDEADLK : 0;
}

int pthread_join(pthread_t thread, void **result) {
    int wrong = is_no_other(thread);
    if (wrong)
        return wrong;
    uint32_t found = result_of(number_of(thread));
    if (result)
        *result = (void *)found;
    return 0;
}

int thrd_join(thrd_t thread, int *result) {
    if (is_no_other(thread))
        return thrd_error;
    uint32_t found = result_of(number_of(thread));
    if (result)
        *result = found;
    return thrd_success;
}

#ifdef ORDERS
static int runs(int thread) { return !orders_has_ended(thread); }

static int runs_until(int thread, int64_t deadline) {
    unsigned result;
    return orders_joins(thread, &result, deadline) == 2;
}
#else
#define runs(thread) (!ends[thread])
#define runs_until(thread, deadline) (wait_while_for(&ends[thread], RUNS, deadline) == 2)
#endif

int pthread_tryjoin_np(pthread_t thread, void **result) {
    int wrong = is_no_other(thread);
    return wrong ? wrong : runs(number_of(thread)) ? EBUSY : pthread_join(thread, result);
}

int pthread_timedjoin_np(pthread_t thread, void **result, const struct timespec *until) {
    int wrong = is_no_other(thread);
    if (wrong || is_wrong(until))
        return wrong ? wrong : EINVAL;
    while (runs(number_of(thread)))
        if (fails_for_nothing(TIMEOUTS) || runs_until(number_of(thread), deadline_of(until)))
            return ETIMEDOUT;
    return pthread_join(thread, result);
}

/* ---- Clocks, and what sleeps for a time: any thread may come next behind it, as at any time ---- */

int clock_gettime(clockid_t clock, struct timespec *t) {
    (void)clock;
    int64_t time = time_now();
    t->tv_sec = time / NANOSECONDS;
    t->tv_nsec = time % NANOSECONDS;
    return 0;
}

int clock_getres(clockid_t clock, struct timespec *t) {
    (void)clock;
    if (t)
        *t = (struct timespec){0, 1};
    return 0;
}

int timespec_get(struct timespec *t, int base) { return base == TIME_UTC ? clock_gettime(CLOCK_REALTIME, t), base : 0; }

time_t time(time_t *t) {
    time_t seconds = time_now() / NANOSECONDS;
    if (t)
        *t = seconds;
    return seconds;
}

clock_t clock(void) { return (time_now() - BEGIN) / (NANOSECONDS / CLOCKS_PER_SEC); }

int gettimeofday(struct timeval *t, void *zone) {
    (void)zone;
    int64_t time = time_now();
    t->tv_sec = time / NANOSECONDS;
    t->tv_usec = time % NANOSECONDS / 1000;
    return 0;
}

unsigned sleep(unsigned seconds) { sleep_for((int64_t)seconds * NANOSECONDS); return 0; }
int usleep(unsigned microseconds) { sleep_for((int64_t)microseconds * 1000); return 0; }

int clock_nanosleep(clockid_t clock, int flags, const struct timespec *time, struct timespec *left) {
    (void)clock;
    if (is_wrong(time))
        return EINVAL;
    sleep_for(as_nanoseconds(time) - (flags & TIMER_ABSTIME ? time_now() : 0));
    if (left && !(flags & TIMER_ABSTIME))
        *left = (struct timespec){0, 0};
    return 0;
}

int nanosleep(const struct timespec *time, struct timespec *left) {
    int wrong = clock_nanosleep(CLOCK_REALTIME, 0, time, left);
    return wrong ? errno = wrong, -1 : 0;
}

int thrd_sleep(const struct timespec *time, struct timespec *left) { return nanosleep(time, left); }

long sysconf(int name) {
    switch (name) {
    case _SC_NPROCESSORS_ONLN:
    case _SC_NPROCESSORS_CONF:
        return __wathread_most();
    case _SC_PAGESIZE:
        return 65536;
    }
    return errno = EINVAL, -1;
}
