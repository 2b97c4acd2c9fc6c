/* EXPECT trap: a weak compare-exchange may fail for nothing. */
#include <assert.h>
#include <pthread.h>
#include <stdatomic.h>
static _Atomic int x;
static void *f(void *p) {
    int expected = 0;
    assert(atomic_compare_exchange_weak(&x, &expected, 1));
    return p;
}
int main(void) {
    pthread_t a;
    pthread_create(&a, 0, f, 0);
    pthread_join(a, 0);
    return 0;
}
