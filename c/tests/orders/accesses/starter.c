/* EXPECT trap: the thread that starts another one may come behind what that does, with what it does next. */
#include <assert.h>
#include <pthread.h>
#include <stdatomic.h>

static _Atomic int flag;

static void *raise_flag(void *none) {
    atomic_store_explicit(&flag, 1, memory_order_relaxed);
    return none;
}

int main(void) {
    pthread_t thread;
    pthread_create(&thread, 0, raise_flag, 0);
    assert(!atomic_load_explicit(&flag, memory_order_relaxed));
    pthread_join(thread, 0);
    return 0;
}
