/* wathread.h: N threads sleep at a gate of four bytes, and each that is through wakes the next one, by notify_one; then
   at one of eight bytes, whose sleepers `main` wakes by their number. */
#include <assert.h>
#include <wathread.h>

#ifndef N
#define N 2
#endif

static _Atomic int gate;
static _Atomic long long wide_gate;
static const long long WIDE = 1LL << 32;
static _Atomic int through;

static void body(int me) {
    while (!gate)
        assert(wait_while(&gate, 0) < 2);
#ifndef BUG /* nobody wakes the next one */
    notify_one(&gate);
#endif
    while (wide_gate != WIDE)
        assert(wait_while_for(&wide_gate, 0, -1) < 2);
    through += me;
}

int main(void) {
    int threads[N], woken;
    for (int i = 0; i < N; i++)
        threads[i] = thread_spawn(body, i + 1);
    gate = 1;
    notify_one(&gate);
    wide_gate = WIDE;
    woken = notify_some(&wide_gate, N);
    assert(woken >= 0 && woken <= N);
    for (int i = 0; i < N; i++)
        thread_join(threads[i]);
    assert(through == N * (N + 1) / 2);
    return through;
}
