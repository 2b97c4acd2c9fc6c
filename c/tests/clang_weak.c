/* A program's own mutex, defined weakly as libraries do: a count of calls says whose it is. With -DSTRONG it is defined
   as usual, and with -DHALF the unlocking is the library's. */
#include <assert.h>
#include <pthread.h>

static int calls, there;

static int lock(pthread_mutex_t *m) {
    while (m->state || __sync_val_compare_and_swap((int *)m, 0, 1)) {}
    calls++;
    return 0;
}

static int unlock(pthread_mutex_t *m) {
    m->state = 0;
    return 0;
}

#ifdef STRONG
int pthread_mutex_lock(pthread_mutex_t *m) { return lock(m); }
int pthread_mutex_unlock(pthread_mutex_t *m) { return unlock(m); }
#else
int pthread_mutex_lock(pthread_mutex_t *m) __attribute__((weak, alias("lock")));
#ifndef HALF
int pthread_mutex_unlock(pthread_mutex_t *m) __attribute__((weak, alias("unlock")));
#endif
#endif

static pthread_mutex_t m;
static pthread_cond_t c;

static void *body(void *arg) {
    pthread_mutex_lock(&m);
    there = 1;
    pthread_cond_signal(&c);
    pthread_mutex_unlock(&m);
    (void)unlock;
    return arg;
}

int main(void) {
    pthread_t t;
    pthread_create(&t, 0, body, 0);
    pthread_mutex_lock(&m);
    int waits = 0;
    while (!there) {
        pthread_cond_wait(&c, &m); /* which takes this mutex again */
        waits++;
    }
    pthread_mutex_unlock(&m);
    pthread_join(t, 0);
    assert(calls == 2 + waits);
    return 0;
}
