/* EXPECT data_race: a copy of a string is given away without an order. */
#include <pthread.h>
#include <stdatomic.h>
#include <string.h>

static char *_Atomic given;

static void *read_it(void *arg) {
    char *text = atomic_load_explicit(&given, memory_order_relaxed);
    return text && text[0] == 'b' ? arg : 0;
}

int main(void) {
    pthread_t one;
    pthread_create(&one, 0, read_it, 0);
    atomic_store_explicit(&given, strdup("abc"), memory_order_relaxed);
    pthread_join(one, 0);
    return 0;
}
