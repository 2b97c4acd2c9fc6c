/* A seqlock: the writer counts up before and after it writes, so the count is odd meanwhile. The reader reads until it
   finds the same even count before and after, and never keeps the writer waiting. */
#include <assert.h>
#include <pthread.h>
#include <stdatomic.h>
#include <wathread.h>

enum { WRITES = 2 };

static atomic_int count, low, high;

static void *write_both(void *unused) {
    (void)unused;
    for (int value = 1; value <= WRITES; value++) {
        count++;
        low = value;
        high = value;
        count++;
        notify_all(&count);
    }
    return 0;
}

static void read_both(int *first, int *second) {
    for (int seen = count;; seen = count)
        if (seen & 1)
            wait_while(&count, seen);
        else {
            *first = low;
            *second = high;
            if (count == seen)
                return;
        }
}

int main(void) {
    int first, second;
    pthread_t thread;
    pthread_create(&thread, 0, write_both, 0);
    read_both(&first, &second);
    assert(first == second);
    pthread_join(thread, 0);
    return high;
}
