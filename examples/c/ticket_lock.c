/* A ticket lock: who comes draws a ticket, and waits until that one is served. */
#include <assert.h>
#include <pthread.h>
#include <stdatomic.h>
#include <wathread.h>

enum { THREADS = 3, ROUNDS = 1 };

struct ticket_lock {
    atomic_int drawn, served;
};

static struct ticket_lock tickets;
static int sum;

static void lock(struct ticket_lock *l) {
    int ticket = atomic_fetch_add(&l->drawn, 1);
    for (int served; (served = l->served) != ticket;)
        wait_while(&l->served, served);
}

static void unlock(struct ticket_lock *l) {
    l->served++;
    notify_all(&l->served); /* the next one may be any of them */
}

static void *add(void *number) {
    for (int i = 0; i < ROUNDS; i++) {
        lock(&tickets);
        sum += (int)number;
        unlock(&tickets);
    }
    return 0;
}

int main(void) {
    pthread_t threads[THREADS];
    for (int i = 0; i < THREADS; i++)
        pthread_create(&threads[i], 0, add, (void *)(i + 1));
    for (int i = 0; i < THREADS; i++)
        pthread_join(threads[i], 0);
    assert(sum == ROUNDS * THREADS * (THREADS + 1) / 2);
    return sum;
}
