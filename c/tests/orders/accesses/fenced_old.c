/* EXPECT trap: the same of relaxed accesses, and the flag is acquired by a fence. */
#include <assert.h>
#include <pthread.h>
#include <stdatomic.h>
static _Atomic int data, ready;
static void *writer(void *p) {
    atomic_thread_fence(memory_order_release); /* should be behind the next line */
    atomic_store_explicit(&data, 42, memory_order_relaxed);
    atomic_store_explicit(&ready, 1, memory_order_relaxed);
    return p;
}
static void *reader(void *p) {
    if (atomic_load_explicit(&ready, memory_order_relaxed)) {
        atomic_thread_fence(memory_order_acquire);
        int seen = atomic_load_explicit(&data, memory_order_relaxed);
        assert(seen == 42);
    }
    return p;
}
int main(void) {
    pthread_t s, t;
    pthread_create(&s, 0, writer, 0);
    pthread_create(&t, 0, reader, 0);
    pthread_join(s, 0);
    pthread_join(t, 0);
    return 0;
}
