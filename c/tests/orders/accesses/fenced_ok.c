/* EXPECT ok: relaxed stores and exchanges behind a release fence that orders all that their thread did, so nothing is said. */
#include <assert.h>
#include <pthread.h>
#include <stdatomic.h>
static int data, more; static _Atomic int ready, unused, late, count;
static void *writer(void *p) {
    data = 42;
    (void)atomic_load_explicit(&unused, memory_order_relaxed);
    more += data;
    atomic_thread_fence(memory_order_release);
    atomic_fetch_add_explicit(&count, 1, memory_order_relaxed); /* the first access of it */
    return p;
}
static void *second(void *p) {
    while (atomic_load_explicit(&count, memory_order_acquire) != 1)
        ;
    more++;
    atomic_thread_fence(memory_order_release);
    int had = 1;
    while (!atomic_compare_exchange_weak_explicit(&count, &had, 2, memory_order_relaxed, memory_order_relaxed))
        had = 1;
    atomic_thread_fence(memory_order_release);
    (void)atomic_load_explicit(&late, memory_order_relaxed); /* which nobody writes */
    atomic_store_explicit(&ready, 1, memory_order_relaxed);
    return p;
}
static void *reader(void *p) {
    while (!atomic_load_explicit(&ready, memory_order_acquire))
        ;
    assert(data == 42 && more == 43);
    return p;
}
int main(void) {
    pthread_t r, s, t;
    pthread_create(&r, 0, writer, 0);
    pthread_create(&s, 0, second, 0);
    pthread_create(&t, 0, reader, 0);
    pthread_join(r, 0);
    pthread_join(s, 0);
    pthread_join(t, 0);
    return 0;
}
