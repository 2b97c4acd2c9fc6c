/* EXPECT use_after_free: blocks beside one another are freed by two threads, and a third one uses the second of them. */
#include <pthread.h>
#include <stdatomic.h>
#include <stdlib.h>
static int *blocks[3]; static _Atomic int freed;
static void *first(void *p) {
    free(blocks[0]);
    free(blocks[2]);
    return p;
}
static void *second(void *p) {
    free(blocks[1]);
    atomic_store_explicit(&freed, 1, memory_order_release);
    return p;
}
static void *third(void *p) {
    if (atomic_load_explicit(&freed, memory_order_acquire))
        blocks[1][5] = 1;
    return p;
}
int main(void) {
    for (int i = 0; i < 3; i++)
        blocks[i] = malloc((i + 1) * 10);
    pthread_t r, s, t;
    pthread_create(&r, 0, first, 0);
    pthread_create(&t, 0, third, 0);
    pthread_create(&s, 0, second, 0);
    pthread_join(r, 0);
    pthread_join(s, 0);
    pthread_join(t, 0);
    return 0;
}
