/* EXPECT use_after_free: a block is freed, and that is told in order. */
#include <pthread.h>
#include <stdatomic.h>
#include <stdlib.h>
static int *block; static _Atomic int freed;
static void *first(void *p) {
    free(block);
    atomic_store_explicit(&freed, 1, memory_order_release);
    return p;
}
static void *second(void *p) {
    if (atomic_load_explicit(&freed, memory_order_acquire))
        *block = 1;
    return p;
}
int main(void) { block = malloc(sizeof *block); pthread_t s, t; pthread_create(&s, 0, first, 0); pthread_create(&t, 0, second, 0); pthread_join(s, 0); pthread_join(t, 0); return 0; }
