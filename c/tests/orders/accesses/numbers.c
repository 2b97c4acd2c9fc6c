/* EXPECT ok: threads have the numbers in which they are started, behind a choice too. */
#include <assert.h>
#include <stdatomic.h>
#include <wathread.h>
static _Atomic int x;
static void f(int number) {
    assert(thread_self() == number);
    atomic_store_explicit(&x, number, memory_order_relaxed);
}
int main(void) {
    int a = thread_spawn(f, 1);
    atomic_load_explicit(&x, memory_order_relaxed);
    int b = thread_spawn(f, 2);
    assert(a == 1 && b == 2);
    thread_join(a);
    thread_join(b);
    assert(thread_spawn(f, 3) == 3);
    thread_join(3);
    return 0;
}
