/* EXPECT orders_full_of_places: more places than the table has. */
#include <pthread.h>
static volatile int x[100];
static void *w(void *p) { for (int i = 0; i < 50; i++) x[i * 2 + (int)p] = i; return p; }
int main(void) { pthread_t a, b; pthread_create(&a, 0, w, 0); pthread_create(&b, 0, w, (void *)1); pthread_join(a, 0); pthread_join(b, 0); return 0; }
