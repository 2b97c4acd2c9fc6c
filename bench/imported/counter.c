/* Four threads add to one counter with an atomic add; the first thread sleeps until all have said that they are done.
   The shared words lie at fixed addresses: data of the linker's own would need a start function, which isn't served. */
#include "threads.h"

#define COUNTER ((_Atomic int *)1024)
#define DONE ((_Atomic int *)1032)

enum { THREADS = 4, ROUNDS = 500 };

EXPORT("f") int run(void) {
    for (int i = 0; i < THREADS; i++)
        thread_spawn(i);
    for (int done; (done = *DONE) < THREADS;)
        wait_while(DONE, done);
    return *COUNTER;
}

EXPORT("wasi_thread_start") void thread_start(int id, int arg) {
    (void)id, (void)arg;
    for (int i = 0; i < ROUNDS; i++)
        *COUNTER += 1;
    *DONE += 1;
    notify_all(DONE);
}
