/* EXPECT data_race: who has read tells it by a relaxed store, and another thread writes; a line is printed in between. */
#include <pthread.h>
#include <stdatomic.h>
#include <stdio.h>
static struct { int size; struct { int data[2]; } in; } box; static _Atomic int done;
static void *reader(void *p) {
    p = (void *)box.in.data[1];
    atomic_store_explicit(&done, -1, memory_order_relaxed); /* should be release */
    return p;
}
static void *writer(void *p) {
    printf("is it done?");
    if (atomic_load_explicit(&done, memory_order_acquire) < 0)
        box.in.data[1] = 42;
    printf(" it is\n");
    return p;
}
int main(void) { pthread_t s, t; pthread_create(&s, 0, reader, 0); pthread_create(&t, 0, writer, 0); pthread_join(s, 0); pthread_join(t, 0); return 0; }
