/* EXPECT data_race: a release fence that comes too early: it orders one store before the flag, and not the other one. */
#include <pthread.h>
#include <stdatomic.h>
static int before, since; static _Atomic int ready;
static void *writer(void *p) {
    before = 42;
    atomic_thread_fence(memory_order_release);
    since = 43; /* should be before the fence */
    atomic_store_explicit(&ready, 1, memory_order_relaxed);
    return p;
}
static void *reader(void *p) {
    if (atomic_load_explicit(&ready, memory_order_acquire))
        return (void *)(before + since);
    return p;
}
int main(void) { pthread_t s, t; pthread_create(&s, 0, writer, 0); pthread_create(&t, 0, reader, 0); pthread_join(s, 0); pthread_join(t, 0); return 0; }
