/* A ticket lock over two words; the number that it guards is changed by plain accesses. */
#include "threads.h"

#define NEXT ((_Atomic int *)1024)
#define SERVED ((_Atomic int *)1028)
#define SUM ((int *)1032)
#define DONE ((_Atomic int *)1036)

enum { THREADS = 4, ROUNDS = 100 };

static void lock(void) {
    int ticket = (*NEXT)++;
    for (int served; (served = *SERVED) != ticket;)
        wait_while(SERVED, served);
}

static void unlock(void) {
    *SERVED += 1;
    notify_all(SERVED);
}

EXPORT("f") int run(void) {
    for (int i = 0; i < THREADS; i++)
        thread_spawn(i);
    for (int done; (done = *DONE) < THREADS;)
        wait_while(DONE, done);
    return *SUM;
}

EXPORT("wasi_thread_start") void thread_start(int id, int arg) {
    (void)id;
    for (int i = 0; i < ROUNDS; i++) {
        lock();
        *SUM += arg + 1;
        unlock();
    }
    *DONE += 1;
    notify_all(DONE);
}
