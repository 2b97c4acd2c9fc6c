/* EXPECT ok: a variable that a thread reads, and nobody writes, which has its name all the same. */
#include <pthread.h>
#include <stdatomic.h>
static struct { _Atomic int slots[2], end; } table = {{0, 7}, 0};
static void *reader(void *p) {
    int seen = atomic_load_explicit(&table.slots[1], memory_order_relaxed);
    atomic_store_explicit(&table.end, seen, memory_order_relaxed);
    return p;
}
int main(void) {
    pthread_t t;
    pthread_create(&t, 0, reader, 0);
    pthread_join(t, 0);
    return table.end != 7;
}
