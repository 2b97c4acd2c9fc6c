/* A mutex of one word, as Ulrich Drepper's "Futexes Are Tricky" has it: whoever finds it held says so in the word before it
   sleeps, and only then whoever unlocks it wakes somebody. */
#include <assert.h>
#include <pthread.h>
#include <stdatomic.h>
#include <wathread.h>

enum { THREADS = 3, ROUNDS = 1 };
enum { FREE, HELD, CONTENDED }; /* contended: held, and somebody may sleep */

static atomic_int mutex;
static int sum;

static void lock(atomic_int *m) {
    int seen = FREE;
    if (atomic_compare_exchange_strong(m, &seen, HELD))
        return;
    while (atomic_exchange(m, CONTENDED) != FREE)
        wait_while(m, CONTENDED);
}

static void unlock(atomic_int *m) {
    if (atomic_exchange(m, FREE) == CONTENDED)
        notify_one(m);
}

static void *add(void *number) {
    for (int i = 0; i < ROUNDS; i++) {
        lock(&mutex);
        sum += (int)number;
        unlock(&mutex);
    }
    return 0;
}

int main(void) {
    pthread_t threads[THREADS];
    for (int i = 0; i < THREADS; i++)
        pthread_create(&threads[i], 0, add, (void *)(i + 1));
    for (int i = 0; i < THREADS; i++)
        pthread_join(threads[i], 0);
    assert(sum == ROUNDS * THREADS * (THREADS + 1) / 2);
    return sum;
}
