/* Threads that race on what one of them has for itself: WAY is whose stack it is, or whose thread-local data. */
#include <errno.h>
#include <pthread.h>
#include <stdio.h>
#include <stdlib.h>

struct pair {
    int first, second[2];
};

static _Thread_local _Alignas(64) char before[3] = "ab";
static _Thread_local struct pair own;
static int *_Atomic given;

static void change(int *number) { ++*number; }

static void *thread(void *arg) {
    int local = 0;
    static _Thread_local short inner;
    before[1] = 'c';
    inner = 5;
    puts("from t1");
#if WAY == 2
    given = &local;
#elif WAY == 3
    given = &own.second[1];
#elif WAY == 4
    given = &errno;
#else
    given = arg;
#endif
    change(given);
    return 0;
}

int main(void) {
    pthread_t t;
    int local = 0, *block = malloc(sizeof *block);
    *block = 0;
    pthread_create(&t, 0, thread, WAY == 1 ? &local : block);
    while (!given) {}
    change(given);
    pthread_join(t, 0);
    return local + own.first;
}
