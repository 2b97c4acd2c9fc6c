/* What nondet answers, by ways of asking: main returns what was chosen, so that each number is an ending. N is the number
   of threads. */
#include <assert.h>
#include <pthread.h>
#include <stdatomic.h>
#include <threads.h>
#include <wathread.h>
#ifndef N
#define N 2
#endif
#ifndef LOW
#define LOW 0
#define HIGH 1
#endif

static int chosen[N];
static _Atomic int sum, go;

static void *ask(void *me) {
#if WAY == 4 /* a number isn't there before it is asked for, and isn't told to others */
    while (!go)
        ;
#endif
    chosen[(int)me] = nondet(LOW, HIGH);
    return me;
}

static int ask_c11(void *me) { return ask(me), (int)pthread_self(); }

static void add(int much) { sum += nondet(0, much); }

static int ask_all(void) {
    pthread_t threads[N];
    int all = 0;
    for (int i = 0; i < N; i++)
        assert(pthread_create(&threads[i], 0, ask, (void *)i) == 0 && threads[i] == i + 1);
    go = 1;
    for (int i = 0; i < N; i++) {
        assert(pthread_join(threads[i], 0) == 0);
        assert(chosen[i] >= LOW && chosen[i] <= HIGH);
        all = all * 10 + chosen[i] - LOW;
    }
    return all;
}

#if WAY == 6 /* main isn't there: another function is invoked */
EXPORT("other") int other(void) { return nondet(LOW, HIGH) - LOW; }
#endif

int main(void) {
#if WAY == 0 /* alone */
    return nondet(LOW, HIGH) - LOW;
#elif WAY == 1 || WAY == 4 || WAY == 6 /* in each thread at once */
    return ask_all();
#elif WAY == 2 /* in main, before threads start, between and behind: they have the numbers that they have without */
    int one = nondet(0, 1), all = ask_all();
    int last = nondet(0, 1);
    return (one * 10 + last) * 100 + all;
#elif WAY == 3 /* C11's threads, how many of which start is chosen */
    thrd_t threads[N];
    int many = nondet(0, N), number;
    for (int i = 0; i < many; i++)
        assert(thrd_create(&threads[i], ask_c11, (void *)i) == thrd_success);
    for (int i = 0; i < many; i++)
        assert(thrd_join(threads[i], &number) == thrd_success && number == i + 1);
    return many;
#elif WAY == 5 /* others ask when main has ended */
    for (int i = 0; i < N; i++)
        thread_spawn(add, 1);
    return 0;
#elif WAY == 7 /* what is assumed: of pairs the lesser number first */
    int a = nondet(0, 3), b = nondet(0, 3);
    assume(a < b);
    return ask_all() * 0 + a * 10 + b;
#elif WAY == 8 /* beside another thread it's a trap */
    thread_spawn(add, 1);
    assume(nondet(0, 1));
    thread_join(1);
    return 0;
#elif WAY == 9 /* behind all others' ends it's none */
    int all = ask_all();
    assume(all % 11 == 0);
    return all;
#endif
}
