/* A static variable that a single function touches, which stores before it reads: it is the same one of both threads,
   and so this fails where one stores between the two steps of the other. */
#include <assert.h>
#include <wathread.h>

#ifndef INSIDE
static _Atomic int last;
#endif

static void body(int me) {
#ifdef INSIDE
    static _Atomic int last;
#endif
    last = me;
    assert(last == me);
}

int main(void) {
    int a = thread_spawn(body, 1), b = thread_spawn(body, 2);
    thread_join(a);
    thread_join(b);
    return 0;
}
