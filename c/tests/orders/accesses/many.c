/* EXPECT orders_full_of_messages: a thread stores more often than the table has room while another one doesn't look. */
#include <pthread.h>
#include <stdatomic.h>
static _Atomic int x, done;
static void *w(void *p) {
    for (int i = 0; i < 200; i++)
        atomic_store_explicit(&x, i, memory_order_relaxed);
    done = 1;
    return p;
}
static void *r(void *p) {
    while (!done)
        ;
    return (void *)x;
}
int main(void) {
    pthread_t a, b;
    pthread_create(&a, 0, w, 0);
    pthread_create(&b, 0, r, 0);
    pthread_join(a, 0);
    pthread_join(b, 0);
    return 0;
}
