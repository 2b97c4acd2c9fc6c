/* Locks of readers and writers, once, spin locks and semaphores. */

/* ---- Lock of readers and writers: who is last wakes all, and so writers may starve ---- */

enum { WRITER = -1 };

int pthread_rwlock_init(pthread_rwlock_t *l, const pthread_rwlockattr_t *attr) {
    (void)attr;
    set_plainly(&l->state, FREE);
    return 0;
}

int pthread_rwlock_destroy(pthread_rwlock_t *l) { return destroy_word(&l->state, FREE); }

/* The first number of each loop is a guess: mostly it is so, and then this is one access. */
static int try_reading(pthread_rwlock_t *l) {
    for (int state = FREE; !atomic_compare_exchange_strong(&l->state, &state, state + 1);) {
        if (state == GONE)
            used_after_destroy();
        if (state == WRITER)
            return EBUSY;
    }
    return 0;
}

static inline __attribute__((always_inline)) int read_until(pthread_rwlock_t *l, int64_t deadline) {
    while (try_reading(l))
        if (sleep_while(&l->state, WRITER, deadline))
            return ETIMEDOUT;
    return 0;
}

static inline __attribute__((always_inline)) int write_until(pthread_rwlock_t *l, int64_t deadline) {
    for (int state = FREE; !atomic_compare_exchange_strong(&l->state, &state, WRITER); state = FREE) {
        if (state == GONE)
            used_after_destroy();
        if (sleep_while(&l->state, state, deadline))
            return ETIMEDOUT;
    }
    return 0;
}

int pthread_rwlock_tryrdlock(pthread_rwlock_t *l) { return fails_for_nothing(TRIALS) ? EBUSY : try_reading(l); }
int pthread_rwlock_rdlock(pthread_rwlock_t *l) { return read_until(l, FOR_EVER); }
int pthread_rwlock_wrlock(pthread_rwlock_t *l) { return write_until(l, FOR_EVER); }

int pthread_rwlock_timedrdlock(pthread_rwlock_t *l, const struct timespec *until) {
    return is_wrong(until) ? EINVAL : read_until(l, deadline_of(until));
}

int pthread_rwlock_timedwrlock(pthread_rwlock_t *l, const struct timespec *until) {
    return is_wrong(until) ? EINVAL : write_until(l, deadline_of(until));
}

int pthread_rwlock_trywrlock(pthread_rwlock_t *l) {
    int state = FREE;
    if (fails_for_nothing(TRIALS))
        return EBUSY;
    if (atomic_compare_exchange_strong(&l->state, &state, WRITER))
        return 0;
    if (state == GONE)
        used_after_destroy();
    return EBUSY;
}

int pthread_rwlock_unlock(pthread_rwlock_t *l) {
    int state = 1;
    if (!atomic_compare_exchange_strong(&l->state, &state, FREE)) {
        if (state == GONE)
            used_after_destroy();
        if (state == FREE)
            __builtin_trap();
        if (state == WRITER) /* a writer's is its own, and readers only count */
            l->state = FREE;
        else if (--l->state != FREE)
            return 0;
    }
    notify_all(&l->state);
    return 0;
}

/* ---- Once, and the spin lock ---- */

enum { NOT_YET, RUNNING, DONE };

int pthread_once(pthread_once_t *once, void (*function)(void)) {
    int state = NOT_YET;
    if (atomic_compare_exchange_strong(once, &state, RUNNING)) {
        function();
        *once = DONE;
        notify_all(once);
    } else
        for (; state != DONE; state = *once)
            wait_while(once, RUNNING);
    return 0;
}

static int try_spin(pthread_spinlock_t *l) { return atomic_exchange(l, HELD) == FREE ? 0 : EBUSY; }

int pthread_spin_init(pthread_spinlock_t *l, int shared) { (void)shared; set_plainly(l, FREE); return 0; }
int pthread_spin_destroy(pthread_spinlock_t *l) { return destroy_word(l, FREE); }
int pthread_spin_trylock(pthread_spinlock_t *l) { return fails_for_nothing(TRIALS) ? EBUSY : try_spin(l); }
int pthread_spin_lock(pthread_spinlock_t *l) { while (try_spin(l)) {} return 0; }
int pthread_spin_unlock(pthread_spinlock_t *l) { *l = FREE; return 0; }

/* ---- Semaphore ---- */

int sem_init(sem_t *s, int shared, unsigned value) {
    (void)shared;
    if (value > SEM_VALUE_MAX)
        return errno = EINVAL, -1;
    set_plainly((_Atomic int *)&s->value, value);
    return 0;
}

/* A destroyed one has a value that no other comes to. */
enum { NO_VALUE = -1 };

int sem_destroy(sem_t *s) { set_plainly((_Atomic int *)&s->value, NO_VALUE); return 0; }

static int take(sem_t *s) {
    for (unsigned value = 1; !atomic_compare_exchange_strong(&s->value, &value, value - 1);) {
        if (value == (unsigned)NO_VALUE)
            used_after_destroy();
        if (!value)
            return -1;
    }
    return 0;
}

static inline __attribute__((always_inline)) int take_until(sem_t *s, int64_t deadline) {
    while (take(s))
        if (sleep_while((_Atomic int *)&s->value, 0, deadline))
            return errno = ETIMEDOUT, -1;
    return 0;
}

int sem_trywait(sem_t *s) { return fails_for_nothing(TRIALS) || take(s) ? errno = EAGAIN, -1 : 0; }
int sem_wait(sem_t *s) { return take_until(s, FOR_EVER); }

int sem_timedwait(sem_t *s, const struct timespec *until) {
    return is_wrong(until) ? errno = EINVAL, -1 : take_until(s, deadline_of(until));
}

/* Who finds that there were as many as may be takes its own back: for that time there are more than may be, which are
   there to be taken like others. */
static __attribute__((noinline)) int take_back(sem_t *s) {
    if (s->value-- == 0)
        used_after_destroy();
    return errno = EOVERFLOW, -1;
}

int sem_post(sem_t *s) {
    if (s->value++ >= SEM_VALUE_MAX)
        return take_back(s);
    notify_one(&s->value);
    return 0;
}

int sem_getvalue(sem_t *s, int *value) {
    unsigned found = s->value;
    *value = found > SEM_VALUE_MAX ? SEM_VALUE_MAX : found;
    return 0;
}
