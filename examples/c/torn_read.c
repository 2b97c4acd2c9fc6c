/* A seqlock without its second look: the reader waits until the count is even, reads both words, and doesn't look whether
   the count is still the same. What it reads may be half old and half new; then `main` answers something else than 0.
   seqlock.c does it right. */
#include <pthread.h>
#include <stdatomic.h>
#include <wathread.h>

static atomic_int count, low, high;

static void *write_both(void *value) {
    count++;
    low = (int)value;
    high = (int)value;
    count++;
    notify_all(&count);
    return 0;
}

static int read_difference(void) {
    for (int seen; (seen = count) & 1;)
        wait_while(&count, seen);
    int first = low;
    return first - high;
}

int main(void) {
    pthread_t thread;
    pthread_create(&thread, 0, write_both, (void *)5);
    return read_difference();
}
