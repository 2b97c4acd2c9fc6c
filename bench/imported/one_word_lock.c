/* A ticket lock of one word of 64 bits: the tickets drawn in its upper half, the tickets served in its lower half. The
   threads that are done set their bits in another such word, which the first thread takes whole, again and again. */
#include "threads.h"
#include <stdatomic.h>

#define LOCK ((_Atomic unsigned long long *)1024)
#define SERVED ((_Atomic int *)1024)
#define DONE ((_Atomic unsigned long long *)1032)
#define DONE_LOW ((_Atomic int *)1032)
#define SUM ((int *)1040)

enum { THREADS = 4, ROUNDS = 100, ALL = (1 << THREADS) - 1 };

static void lock(void) {
    int ticket = atomic_fetch_add(LOCK, 1ull << 32) >> 32;
    for (int served; (served = *SERVED) != ticket;)
        wait_while(SERVED, served);
}

static void unlock(void) {
    *SERVED += 1;
    notify_all(SERVED);
}

EXPORT("f") int run(void) {
    for (int i = 0; i < THREADS; i++)
        thread_spawn(i);
    for (unsigned long long done = 0; (done |= atomic_exchange(DONE, 0)) != ALL;)
        wait_while(DONE_LOW, 0);
    return *SUM;
}

EXPORT("wasi_thread_start") void thread_start(int id, int arg) {
    (void)id;
    for (int i = 0; i < ROUNDS; i++) {
        lock();
        *SUM += arg + 1;
        unlock();
    }
    atomic_fetch_or(DONE, 1ull << arg);
    notify_all(DONE_LOW);
}
