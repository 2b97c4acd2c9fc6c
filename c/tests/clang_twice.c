/* An access that the source makes twice is made twice: the second thread may come between. */
#include <assert.h>
#include <wathread.h>

static int value;

static void body(int me) {
    (void)me;
    if (!value)
        value++;
    assert(value == 1);
}

int main(void) {
    int a = thread_spawn(body, 1), b = thread_spawn(body, 2);
    thread_join(a);
    thread_join(b);
    return 0;
}
