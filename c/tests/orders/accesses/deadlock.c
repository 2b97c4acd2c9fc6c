/* EXPECT asleep: two mutexes, taken in two orders; a relaxed load before it makes the helper be there. */
#include <pthread.h>
#include <stdatomic.h>
static pthread_mutex_t m[2];
static _Atomic int x;
static void *f(void *p) {
    int i = (int)p;
    atomic_store_explicit(&x, i, memory_order_relaxed);
    atomic_load_explicit(&x, memory_order_relaxed);
    pthread_mutex_lock(&m[i]);
    pthread_mutex_lock(&m[1 - i]);
    pthread_mutex_unlock(&m[1 - i]);
    pthread_mutex_unlock(&m[i]);
    return p;
}
int main(void) {
    pthread_t a, b;
    pthread_create(&a, 0, f, (void *)0);
    pthread_create(&b, 0, f, (void *)1);
    pthread_join(a, 0);
    pthread_join(b, 0);
    return 0;
}
