/* EXPECT atomics_of_mixed_sizes: four bytes of an atomic of eight. */
#include <pthread.h>
#include <stdatomic.h>
static union { _Atomic int half; _Atomic long long whole; } both;
static void *first(void *p) {
    atomic_store_explicit(&both.whole, 1, memory_order_relaxed);
    return p;
}
static void *second(void *p) { return (void *)atomic_load_explicit((_Atomic int *)&both, memory_order_relaxed); }
int main(void) { pthread_t s, t; pthread_create(&s, 0, first, 0); pthread_create(&t, 0, second, 0); pthread_join(s, 0); pthread_join(t, 0); return 0; }
