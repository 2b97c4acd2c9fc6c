/* A plug-in with state, which a host calls again and again over one memory, each time with the number of calls before. What it
   finds is what C has for a library whose threads have ended: its own data, and threads, thread-local data and lists of what
   is to be called as they are at first. */
#include <assert.h>
#include <errno.h>
#include <pthread.h>
#include <semaphore.h>
#include <stdatomic.h>
#include <stdlib.h>
#include <string.h>
#include <threads.h>
#include <wathread.h>

enum { WORKERS = 2, STARTS = 6, KEPT = 3 };

static pthread_mutex_t mutex = PTHREAD_MUTEX_INITIALIZER;
static pthread_mutex_t recursive = PTHREAD_RECURSIVE_MUTEX_INITIALIZER_NP;
static pthread_cond_t changed = PTHREAD_COND_INITIALIZER;
static pthread_rwlock_t lock = PTHREAD_RWLOCK_INITIALIZER;
static pthread_once_t once = PTHREAD_ONCE_INIT;
static pthread_barrier_t barrier;
static sem_t tickets;
static pthread_key_t key;
static atomic_int starts, destroyed;
static int sum, made, cleaned;
static _Thread_local int local = 5, calls;
static _Thread_local struct { char text[12]; } name = {"nobody"};

static struct block { struct block *next; int number; } *blocks, **last = &blocks;

static void destroy(void *value) { destroyed += (int)value; }
static void clean(void *much) { cleaned += (int)much; }

static void make(void) {
    made++;
    assert(pthread_key_create(&key, destroy) == 0);
    assert(pthread_barrier_init(&barrier, 0, WORKERS) == 0 && sem_init(&tickets, 0, WORKERS) == 0);
}

/* Each thread's own data are as at first, and are left otherwise. */
static void own(int me) {
    assert(local == 5 && calls == 0 && !strcmp(name.text, "nobody") && errno == 0 && !pthread_getspecific(key));
    local = calls = errno = me + 10;
    strcpy(name.text, "somebody");
    pthread_setspecific(key, (void *)1);
}

static void *work(void *me) {
    void *block = malloc(1);
    assert(block);
    free(block);
    own((int)me);
    assert(sem_wait(&tickets) == 0);
    assert(pthread_mutex_lock(&recursive) == 0 && pthread_mutex_lock(&recursive) == 0);
    pthread_rwlock_rdlock(&lock);
    pthread_mutex_lock(&mutex);
    sum += (int)me;
    starts++;
    pthread_cond_broadcast(&changed);
    pthread_mutex_unlock(&mutex);
    pthread_rwlock_unlock(&lock);
    assert(pthread_mutex_unlock(&recursive) == 0 && pthread_mutex_unlock(&recursive) == 0);
    assert(sem_post(&tickets) == 0);
    pthread_barrier_wait(&barrier);
    pthread_cleanup_push(clean, (void *)0);
    if ((int)me == 2)
        pthread_exit(me);
    pthread_cleanup_pop(0);
    return me;
}

/* One at a time, more often than there are threads. */
static int alone(void *me) {
    own((int)me);
    sum++;
    return (int)me;
}

/* What a call before took is given back, and something else is taken. */
static void blocks_go(int call) {
    for (int number = 0; call > 1 && number < KEPT; number++) {
        struct block *first = blocks;
        assert(first && first->number == (call - 1) * KEPT + number);
        blocks = first->next;
        free(first);
    }
    last = &blocks;
    for (int number = 0; call && number < KEPT; number++) {
        *last = malloc(sizeof **last);
        assert(*last);
        **last = (struct block){0, call * KEPT + number};
        last = &(*last)->next;
    }
}

EXPORT("value") int value(void) { return sum; }

static int built;
__attribute__((constructor)) static void build(void) { built++; }

static int call(int number) {
    pthread_t threads[WORKERS];
    pthread_key_t mine;
    assert(calls++ == number && pthread_self() != 1);
    assert(pthread_once(&once, make) == 0 && made == 1);
    assert(pthread_getspecific(key) == (void *)number);
    pthread_setspecific(key, (void *)(number + 1));
    assert(pthread_key_create(&mine, destroy) == 0 && !pthread_getspecific(mine));
    pthread_setspecific(mine, &mine);
    assert(pthread_key_delete(mine) == 0);
    blocks_go(number);

    for (int i = 0; i < WORKERS; i++)
        assert(pthread_create(&threads[i], 0, work, (void *)(i + 1)) == 0 && threads[i] == i + 1);
    pthread_mutex_lock(&mutex);
    while (starts != (number + 1) * WORKERS)
        pthread_cond_wait(&changed, &mutex);
    pthread_mutex_unlock(&mutex);
    for (int i = 0; i < WORKERS; i++) {
        void *result;
        assert(pthread_join(threads[i], &result) == 0 && result == (void *)(i + 1));
    }
#ifndef C11 /* with --orders c11 there are so many starts, and no more */
    for (int i = 0; i < STARTS; i++) {
        thrd_t thread;
        int result;
        assert(thrd_create(&thread, alone, (void *)i) == thrd_success && thrd_join(thread, &result) == thrd_success);
        assert(result == i);
    }
    assert(destroyed == (number + 1) * (WORKERS + STARTS));
    assert(sum == (number + 1) * (1 + 2 + STARTS));
#else
    (void)alone;
    assert(destroyed == (number + 1) * WORKERS && sum == (number + 1) * (1 + 2));
#endif
    return value();
}

/* Behind another function than main what atexit was given isn't called, and in a later call nothing of it is there. What is
   to be called before main is called once. */
static void never(void) { assert(0); }

EXPORT("call") int call_it(int number) {
    assert(built == 1);
    for (int i = 0; i < 8; i++)
        assert(atexit(never) == 0 && at_quick_exit(never) == 0);
    return call(number);
}

/* The same by main, whose end calls that. */
static int ends;
static void count(void) { ends++; }

int main(void) {
    int number = calls;
    assert(built == number + 1 && number == ends && atexit(count) == 0);
    return call(number);
}

/* ---- Calls that end in the middle ---- */

static atomic_int has_it, words[24];
static int *nothing;

static void *hold(void *how) {
    pthread_mutex_lock(&recursive);
    has_it = 1;
    notify_all(&has_it);
    if (how)
        assert(nothing);
    for (;;)
        wait_while(&has_it, 1);
    return 0;
}

/* A thread takes the lock, and traps, or sleeps for good; so may main's. */
EXPORT("hold") int hold_it(int how) {
    pthread_t thread;
    pthread_create(&thread, 0, hold, (void *)(how & 1));
    while (!has_it)
        wait_while(&has_it, 0);
    pthread_cleanup_push(clean, (void *)1);
    assert(!(how & 2));
    pthread_cleanup_pop(0);
    return 0;
}

static void *try(void *unused) {
    (void)unused;
    return (void *)(pthread_mutex_trylock(&recursive) + 1000 * pthread_mutex_unlock(&recursive));
}

static void leave(void) { pthread_exit(0); }

/* What that thread held stays held, by nobody who is there. */
EXPORT("held") int held(void) {
    pthread_t thread;
    void *answer;
    pthread_create(&thread, 0, try, 0);
    pthread_join(thread, &answer);
    assert(answer == (void *)(EBUSY + 1000 * EPERM) && pthread_mutex_unlock(&recursive) == EPERM);
    pthread_cleanup_push(clean, (void *)100);
    leave();
    pthread_cleanup_pop(0);
    return 0;
}

EXPORT("cleaned") int how_clean(void) { return cleaned; }

/* main's thread is the same in each call. */
EXPORT("take") int take(void) { return pthread_mutex_lock(&recursive); }
EXPORT("give") int give(void) { return pthread_mutex_unlock(&recursive); }

static void *turn(void *me) {
    for (int i = 100; i--;) { /* downwards, so that in tables that are sorted those behind move */
        atomic_store_explicit(&words[i % 24], i, memory_order_relaxed);
        if (i % 3 == 0)
            atomic_thread_fence(i % 2 ? memory_order_release : memory_order_seq_cst);
        atomic_fetch_add_explicit(&words[(i + (int)me) % 24], atomic_load_explicit(&words[3], memory_order_acquire),
                                  memory_order_acq_rel);
    }
    return me;
}

/* Threads that nobody joins, and that may be stopped anywhere. */
EXPORT("leave") int leave_them(void) {
    pthread_t thread;
    for (int i = 0; i < WORKERS; i++)
        pthread_create(&thread, 0, turn, (void *)i);
    return 0;
}

/* ---- All orders of a call ---- */

static atomic_int x, y;

static void *write_both(void *unused) {
    atomic_store_explicit(&x, 1, memory_order_relaxed);
    atomic_store_explicit(&y, 1, memory_order_relaxed);
    return unused;
}

static void *read_both(void *unused) {
    (void)unused;
    int first = atomic_load_explicit(&y, memory_order_relaxed);
    return (void *)(10 * first + atomic_load_explicit(&x, memory_order_relaxed));
}

EXPORT("orders") int orders(void) {
    pthread_t threads[2];
    void *answer;
    x = y = 0;
    pthread_create(&threads[0], 0, write_both, 0);
    pthread_create(&threads[1], 0, read_both, 0);
    pthread_join(threads[0], 0);
    pthread_join(threads[1], &answer);
    return (int)answer;
}
