/* Four threads add to one counter, each 500 times, and no increment is lost. */
#include <pthread.h>
#include <stdatomic.h>

enum { THREADS = 4, ROUNDS = 500 };

static atomic_int counter;

static void *count(void *unused) {
    (void)unused;
    for (int i = 0; i < ROUNDS; i++)
        counter++;
    return 0;
}

int main(void) {
    pthread_t threads[THREADS];
    for (int i = 0; i < THREADS; i++)
        pthread_create(&threads[i], 0, count, 0);
    for (int i = 0; i < THREADS; i++)
        pthread_join(threads[i], 0);
    return counter;
}
