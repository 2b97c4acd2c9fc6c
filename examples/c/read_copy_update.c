/* Read-copy-update: readers follow a pointer and take no lock. The writer puts another copy in its place, and lets go of
   the old one once each reader that may still have it has left. With -DHASTY it doesn't wait for them. */
#include <assert.h>
#include <pthread.h>
#include <stdatomic.h>
#include <wathread.h>

enum { READERS = 2, GONE = -1 };

struct config {
    int low, high;
};

static struct config copies[2];
static struct config *_Atomic current = &copies[0];
static atomic_int visits[READERS]; /* by reader: odd while it is inside */

static void enter(int me) { visits[me]++; }

static void leave(int me) {
    visits[me]++;
    notify_all(&visits[me]);
}

/* Waits until each reader has left that is inside now. */
static void wait_for_readers(void) {
    for (int i = 0; i < READERS; i++) {
        int seen = visits[i];
        while (seen & 1 && visits[i] == seen)
            wait_while(&visits[i], seen);
    }
}

static void *read_both(void *arg) {
    int me = (int)arg;
    enter(me);
    volatile struct config *config = current;
    assert(config->low != GONE && config->low == config->high);
    leave(me);
    return 0;
}

int main(void) {
    pthread_t threads[READERS];
    for (int i = 0; i < READERS; i++)
        pthread_create(&threads[i], 0, read_both, (void *)i);
    copies[1] = (struct config){5, 5};
    struct config *old = atomic_exchange(&current, &copies[1]);
#ifndef HASTY
    wait_for_readers();
#endif
    *old = (struct config){GONE, GONE};
    for (int i = 0; i < READERS; i++)
        pthread_join(threads[i], 0);
    return current->low;
}
