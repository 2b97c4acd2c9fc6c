/* Peterson's lock, which a single function touches: it is right. */
#include <assert.h>
#include <wathread.h>

static _Atomic int wants[2], turn;
static int inside;

static void body(int me) {
    wants[me] = 1;
    turn = !me;
    while (wants[!me] && turn == !me) {}
    inside++;
    assert(inside == 1);
    inside--;
    wants[me] = 0;
}

int main(void) {
    int a = thread_spawn(body, 0), b = thread_spawn(body, 1);
    thread_join(a);
    thread_join(b);
    return 0;
}
