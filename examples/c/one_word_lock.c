/* A ticket lock in one word of 64 bits: the tickets drawn in its upper half, those served in the lower. To draw a ticket
   and to see which one is served is one step, so whoever finds the lock free has it by that. */
#include <assert.h>
#include <pthread.h>
#include <stdatomic.h>
#include <stdint.h>
#include <wathread.h>

enum { THREADS = 3, ROUNDS = 1 };

static union {
    _Atomic uint64_t both;
    struct {
        atomic_int served, drawn;
    };
} tickets;

static int sum;

static void lock(void) {
    uint64_t before = atomic_fetch_add(&tickets.both, (uint64_t)1 << 32);
    int ticket = before >> 32;
    for (int served = (int)before; served != ticket; served = tickets.served)
        wait_while(&tickets.served, served);
}

static void unlock(void) {
    tickets.served++;
    notify_all(&tickets.served);
}

static void *add(void *number) {
    for (int i = 0; i < ROUNDS; i++) {
        lock();
        sum += (int)number;
        unlock();
    }
    return 0;
}

int main(void) {
    pthread_t threads[THREADS];
    for (int i = 0; i < THREADS; i++)
        pthread_create(&threads[i], 0, add, (void *)(i + 1));
    for (int i = 0; i < THREADS; i++)
        pthread_join(threads[i], 0);
    assert(sum == ROUNDS * THREADS * (THREADS + 1) / 2);
    return sum;
}
