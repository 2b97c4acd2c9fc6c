/* EXPECT data_race: a relaxed load of the flag, which should acquire. */
#include <pthread.h>
#include <stdatomic.h>
static int data; static _Atomic int ready;
static void *writer(void *p) {
    data = 42;
    atomic_store_explicit(&ready, 1, memory_order_release);
    return p;
}
static void *reader(void *p) {
    if (atomic_load_explicit(&ready, memory_order_relaxed)) /* should be acquire */
        return (void *)data;
    return p;
}
int main(void) { pthread_t s, t; pthread_create(&s, 0, writer, 0); pthread_create(&t, 0, reader, 0); pthread_join(s, 0); pthread_join(t, 0); return 0; }
