/* A queue of four slots. Who puts waits for room, and who takes for an item. The bug: who takes doesn't say that there is
   room. So a thread that finds the queue full sleeps for good, and the other one, once it took all, with it. */
#include <pthread.h>
#include <stdatomic.h>
#include <wathread.h>

struct slot {
    int key, item;
};

static struct {
    atomic_int head, tail;
} queue;
static struct slot slots[4];

static void put(int item) {
    int tail = queue.tail;
    while (tail - queue.head == 4)
        wait_while(&queue.head, tail - 4);
    slots[tail % 4].item = item;
    queue.tail = tail + 1;
    notify_all(&queue.tail);
}

static int take(void) {
    int head = queue.head;
    while (queue.tail == head)
        wait_while(&queue.tail, head);
    int item = slots[head % 4].item;
    queue.head = head + 1;
    return item;
}

static void *fill(void *items) {
    for (int i = 1; i <= (int)items; i++)
        put(i);
    return 0;
}

int main(void) {
    pthread_t thread;
    int sum = 0;
    pthread_create(&thread, 0, fill, (void *)6);
    for (int i = 0; i < 6; i++)
        sum += take();
    return sum;
}
