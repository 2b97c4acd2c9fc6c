/* Conditions and barriers. Who waits looks at a word that stays when the object is destroyed: what was to be woken may
   still be on its way to sleep then. So each object has a place with such words, which only count up: who comes late finds
   another value than was there. A condition that is static has its own. */

static struct place { _Atomic int come, rounds; } places[64];
static _Atomic uint64_t places_taken; /* a bit for each */

/* A place that nobody has, or null. */
static struct place *take_place(void) {
    uint64_t taken = 0; /* a guess: mostly it is so, and then this is one access */
    while (~taken && !atomic_compare_exchange_strong(&places_taken, &taken, taken | (taken + 1))) {}
    return ~taken ? &places[__builtin_ctzll(~taken)] : 0;
}

static void give_back(struct place *place) { atomic_fetch_and(&places_taken, ~((uint64_t)1 << (place - places))); }

/* ---- Condition: who waits sleeps only while no signal came since it gave up the mutex ---- */

static _Atomic int *const NO_WORD = (_Atomic int *)GONE;

static _Atomic int *signals_of(pthread_cond_t *c) {
    if (c->word == NO_WORD)
        used_after_destroy();
    return c->word ? c->word : &c->signals;
}

int pthread_cond_init(pthread_cond_t *c, const pthread_condattr_t *attr) {
    (void)attr;
    struct place *place = take_place();
    c->word = place ? &place->come : 0;
    return place ? 0 : EAGAIN;
}

int pthread_cond_destroy(pthread_cond_t *c) {
    if (signals_of(c) != &c->signals)
        give_back((struct place *)c->word);
    c->word = NO_WORD;
    return 0;
}

static inline __attribute__((always_inline)) int wait_for_signal(pthread_cond_t *c, pthread_mutex_t *m, int64_t deadline) {
    _Atomic int *word = signals_of(c);
    int signals = *word, in_vain = fails_for_nothing(WAITS);
    int wrong = pthread_mutex_unlock(m);
    if (wrong) /* a mutex that looks for errors is another's */
        return wrong;
    int late = !in_vain && sleep_while(word, signals, deadline);
    pthread_mutex_lock(m);
    return late ? ETIMEDOUT : 0;
}

int pthread_cond_wait(pthread_cond_t *c, pthread_mutex_t *m) { return wait_for_signal(c, m, FOR_EVER); }

int pthread_cond_timedwait(pthread_cond_t *c, pthread_mutex_t *m, const struct timespec *until) {
    return is_wrong(until) ? EINVAL : wait_for_signal(c, m, deadline_of(until));
}

int pthread_cond_signal(pthread_cond_t *c) {
    _Atomic int *word = signals_of(c);
    ++*word;
    notify_one(word);
    return 0;
}

int pthread_cond_broadcast(pthread_cond_t *c) {
    _Atomic int *word = signals_of(c);
    ++*word;
    notify_all(word);
    return 0;
}

/* ---- Barrier: each that comes draws a number, and so many make a round. Who has the last number of a round lets one
   round more go. Where more threads come than make a round, the last ones of two rounds may do so in either order ---- */

int pthread_barrier_init(pthread_barrier_t *b, const pthread_barrierattr_t *attr, unsigned size) {
    (void)attr;
    if (!size || size > INT32_MAX)
        return EINVAL;
    struct place *place = take_place();
    if (!place)
        return EAGAIN;
    *b = (pthread_barrier_t){place, size, plainly(&place->come), plainly(&place->rounds)};
    return 0;
}

int pthread_barrier_destroy(pthread_barrier_t *b) {
    if (!b->size)
        used_after_destroy();
    b->size = 0;
    give_back(b->place);
    return 0;
}

int pthread_barrier_wait(pthread_barrier_t *b) {
    struct place *place = b->place;
    unsigned size = b->size, first = b->first, round = b->round;
    if (!size)
        used_after_destroy();
    unsigned number = atomic_fetch_add(&place->come, 1) - first;
    round += number / size;
    if (number % size == size - 1) {
        ++place->rounds;
        notify_all(&place->rounds);
        return PTHREAD_BARRIER_SERIAL_THREAD;
    }
    for (unsigned now = round; (int)(now - round) <= 0; now = place->rounds)
        wait_while(&place->rounds, now);
    return 0;
}
