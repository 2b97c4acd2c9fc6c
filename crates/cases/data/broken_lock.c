/* A lock that isn't one: it waits until the flag is clear, and then sets it, in two steps. Two threads can both find it
   clear, and then an increment is lost: `main` answers 1, and not 2. */
#include <pthread.h>
#include <stdatomic.h>
#include <wathread.h>

enum { THREADS = 2 };

static atomic_int flag;
static int sum;

static void lock(void) {
    while (flag)
        wait_while(&flag, 1);
    flag = 1;
}

static void unlock(void) {
    flag = 0;
    notify_one(&flag);
}

static void *add_one(void *unused) {
    (void)unused;
    lock();
    sum++;
    unlock();
    return 0;
}

int main(void) {
    pthread_t threads[THREADS];
    for (int i = 0; i < THREADS; i++)
        pthread_create(&threads[i], 0, add_one, 0);
    for (int i = 0; i < THREADS; i++)
        pthread_join(threads[i], 0);
    return sum;
}
