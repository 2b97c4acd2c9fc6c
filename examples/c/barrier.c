/* A barrier that can be used again and again: the last one to come begins a new round, for which the others wait. */
#include <assert.h>
#include <pthread.h>
#include <stdatomic.h>
#include <wathread.h>

enum { THREADS = 2, ROUNDS = 2 };

static atomic_int missing = THREADS, round_;
static int at[THREADS]; /* how far each has come */

static void barrier(void) {
    int mine = round_;
    if (atomic_fetch_sub(&missing, 1) == 1) {
        missing = THREADS; /* before anybody can come again */
        round_++;
        notify_all(&round_);
    } else
        while (round_ == mine)
            wait_while(&round_, mine);
}

static void *work(void *arg) {
    int me = (int)arg;
    for (int i = 1; i <= ROUNDS; i++) {
        at[me] = i;
        barrier();
        for (int j = 0; j < THREADS; j++)
            assert(at[j] == i);
        barrier(); /* or the fast ones would go on before the others have looked */
    }
    return 0;
}

int main(void) {
    pthread_t threads[THREADS];
    for (int i = 0; i < THREADS; i++)
        pthread_create(&threads[i], 0, work, (void *)i);
    for (int i = 0; i < THREADS; i++)
        pthread_join(threads[i], 0);
    return round_;
}
