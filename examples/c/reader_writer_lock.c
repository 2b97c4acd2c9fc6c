/* A lock that readers share and a writer has alone. A writer that waits keeps new readers out, so readers that come one
   after the other can't keep it waiting. */
#include <assert.h>
#include <pthread.h>
#include <stdatomic.h>
#include <wathread.h>

enum { READERS = 2 };
enum { WRITER = 1 << 30, WRITER_WAITS = 1 << 29 }; /* beside the number of readers */

static atomic_int state;
static int left, right; /* always the same, but for the writer */

static void read_lock(void) {
    for (int seen = state;;)
        if (seen & (WRITER | WRITER_WAITS)) {
            wait_while(&state, seen);
            seen = state;
        } else if (atomic_compare_exchange_strong(&state, &seen, seen + 1))
            return;
}

static void read_unlock(void) {
    if (atomic_fetch_sub(&state, 1) == (WRITER_WAITS | 1)) /* the last one */
        notify_all(&state);
}

static void write_lock(void) {
    for (int seen = state;;)
        if (!(seen & ~WRITER_WAITS)) {
            if (atomic_compare_exchange_strong(&state, &seen, WRITER))
                return;
        } else if (seen & WRITER_WAITS) {
            wait_while(&state, seen);
            seen = state;
        } else if (atomic_compare_exchange_strong(&state, &seen, seen | WRITER_WAITS))
            seen |= WRITER_WAITS;
}

static void write_unlock(void) {
    state = 0; /* who waits is woken, and says so again */
    notify_all(&state);
}

static void *read_both(void *unused) {
    (void)unused;
    read_lock();
    assert(left == right);
    read_unlock();
    return 0;
}

int main(void) {
    pthread_t threads[READERS];
    for (int i = 0; i < READERS; i++)
        pthread_create(&threads[i], 0, read_both, 0);
    write_lock();
    left++;
    right++;
    write_unlock();
    for (int i = 0; i < READERS; i++)
        pthread_join(threads[i], 0);
    assert(state == 0);
    return left;
}
