/* wathread.h alone: each thread waits for its turn at one word, and adds its number; the last one is back at the first.
   A thread that sleeps is woken by who changed the word. */
#include <assert.h>
#include <wathread.h>

#ifndef N
#define N 2
#endif

static _Atomic int turn;
static _Atomic long long wide = 1;
static int sum;

static void body(int me) {
    for (int seen; (seen = turn) != me;)
        wait_while(&turn, seen);
    sum += thread_self();
#ifdef BUG /* wakes before the word is another */
    notify_all(&turn);
    turn = me + 1;
#else
    turn = me + 1;
    notify_all(&turn);
#endif
}

int main(void) {
    int threads[N];
    for (int i = 0; i < N; i++)
        assert((threads[i] = thread_spawn(body, i)) == i + 1);
    for (int i = 0; i < N; i++)
        thread_join(threads[i]);
    assert(sum == N * (N + 1) / 2 && thread_self() == 0);
    /* the word is another; nobody wakes this thread, so its time goes by; nobody is there to be woken */
    assert(wait_while(&turn, 0) == 1 && wait_while_for(&turn, N, 1000000000) == 2 && notify_one(&turn) == 0);
    assert(wait_while(&wide, 1LL << 32) == 1 && wait_while_for(&wide, 1, 5) == 2 && notify_some(&wide, 3) == 0);
    return sum;
}
