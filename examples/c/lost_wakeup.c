/* A wake-up that is lost: who takes looks whether the box is full, and sleeps on whatever the count of letters is by then.
   A letter that comes between the two wakes nobody, and the first thread sleeps for good. */
#include <pthread.h>
#include <stdatomic.h>
#include <wathread.h>

static atomic_int full, count;
static int box;

static int take(void) {
    while (!full)
        wait_while(&count, count);
    return box;
}

static void *put(void *letter) {
    box = (int)letter;
    full = 1;
    count++;
    notify_all(&count);
    return 0;
}

int main(void) {
    pthread_t thread;
    pthread_create(&thread, 0, put, (void *)7);
    return take();
}
