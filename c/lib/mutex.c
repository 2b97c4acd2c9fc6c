/* Mutexes. */

/* What a destroyed object has in a word of its own: who uses it then finds that. */
enum { GONE = -9 };

static __attribute__((noinline)) _Noreturn void used_after_destroy(void) { __builtin_trap(); }

/* Plain accesses, for init and destroy: nobody else may be there, and else it is a race. */
static int plainly(const _Atomic int *word) { return *(const int *)word; }
static void set_plainly(_Atomic int *word, int value) { *(int *)word = value; }

/* Destroys an object of which nobody has anything, or else answers EBUSY. */
static int destroy_word(_Atomic int *word, int idle) {
    if (plainly(word) == GONE)
        used_after_destroy();
    if (plainly(word) != idle)
        return EBUSY;
    set_plainly(word, GONE);
    return 0;
}

/* ---- The usual one: held or not. Who gives it back always wakes one: whether somebody may sleep is noted nowhere, since
   such a note makes two to four times as many states. No value that was seen is kept while a thread waits, for that ---- */

enum { FREE, HELD };

static int try_normal(pthread_mutex_t *m) {
    int state = FREE;
    return atomic_compare_exchange_strong(&m->state, &state, HELD) ? 0 : EBUSY;
}

static inline __attribute__((always_inline)) int lock_normal(pthread_mutex_t *m, int64_t deadline) {
    while (atomic_exchange(&m->state, HELD) != FREE)
        if (sleep_while(&m->state, HELD, deadline))
            return ETIMEDOUT;
    return 0;
}

/* ---- Those that know who holds them: the state is the number of that thread and one more. In a later call threads have
   other numbers here, since those of the calls before hold what they held (calls.c) ---- */

static __attribute__((noinline)) int lock_owned(pthread_mutex_t *m, int64_t deadline, int tries) {
    int own = __wathread_owner() + 1;
    if (m->kind == GONE)
        used_after_destroy();
    for (int state = FREE; !atomic_compare_exchange_strong(&m->state, &state, own); state = FREE) {
        if (state == own && m->kind == PTHREAD_MUTEX_RECURSIVE)
            return m->depth++, 0;
        if (tries || state == own)
            return tries ? EBUSY : EDEADLK;
        if (sleep_while(&m->state, state, deadline))
            return ETIMEDOUT;
    }
    return 0;
}

static __attribute__((noinline)) int unlock_owned(pthread_mutex_t *m) {
    if (m->kind == GONE)
        used_after_destroy();
    if (m->state != __wathread_owner() + 1)
        return EPERM;
    if (m->depth)
        return m->depth--, 0;
    m->state = FREE;
    notify_one(&m->state);
    return 0;
}

/* ---- All of them ---- */

int pthread_mutex_init(pthread_mutex_t *m, const pthread_mutexattr_t *attr) {
    set_plainly(&m->state, FREE);
    m->kind = attr ? attr->kind : PTHREAD_MUTEX_NORMAL;
    m->depth = 0;
    return 0;
}

int pthread_mutex_destroy(pthread_mutex_t *m) {
    if (m->kind == GONE)
        used_after_destroy();
    if (plainly(&m->state) != FREE)
        return EBUSY;
    m->kind = GONE;
    return 0;
}

int pthread_mutex_trylock(pthread_mutex_t *m) {
    if (fails_for_nothing(TRIALS))
        return EBUSY;
    return m->kind ? lock_owned(m, FOR_EVER, 1) : try_normal(m);
}

int pthread_mutex_lock(pthread_mutex_t *m) {
    return m->kind ? lock_owned(m, FOR_EVER, 0) : lock_normal(m, FOR_EVER);
}

int pthread_mutex_timedlock(pthread_mutex_t *m, const struct timespec *until) {
    if (is_wrong(until))
        return EINVAL;
    return m->kind ? lock_owned(m, deadline_of(until), 0) : lock_normal(m, deadline_of(until));
}

int pthread_mutex_unlock(pthread_mutex_t *m) {
    if (m->kind)
        return unlock_owned(m);
    if (atomic_exchange(&m->state, FREE) == FREE)
        __builtin_trap();
    notify_one(&m->state);
    return 0;
}

int pthread_mutexattr_init(pthread_mutexattr_t *a) { a->kind = PTHREAD_MUTEX_DEFAULT; return 0; }
int pthread_mutexattr_destroy(pthread_mutexattr_t *a) { a->kind = PTHREAD_MUTEX_DEFAULT; return 0; }
int pthread_mutexattr_gettype(const pthread_mutexattr_t *a, int *kind) { *kind = a->kind; return 0; }

int pthread_mutexattr_settype(pthread_mutexattr_t *a, int kind) {
    if (kind < PTHREAD_MUTEX_NORMAL || kind > PTHREAD_MUTEX_ERRORCHECK)
        return EINVAL;
    a->kind = kind;
    return 0;
}

int mtx_init(mtx_t *m, int kind) {
    if (kind & ~(mtx_recursive | mtx_timed))
        return thrd_error;
    pthread_mutexattr_t attr = {kind & mtx_recursive ? PTHREAD_MUTEX_RECURSIVE : PTHREAD_MUTEX_NORMAL};
    return pthread_mutex_init(m, &attr);
}
