/* What is read only where it was found to be there: no access that races, whichever way it is written. With -DBUG it is
   read always. */
#include <stdatomic.h>
#include <wathread.h>

static _Atomic int ready;
static int x, y, r;

static void writer(int n) {
    x = n;
    atomic_store(&ready, 1);
}

static void reader(int n) {
    (void)n;
#ifdef BUG
    atomic_load(&ready);
    r = x;
#elif WAY == 1
    if (atomic_load(&ready))
        r = x;
#elif WAY == 2
    if (atomic_load(&ready))
        r = x;
    else
        r = y;
#elif WAY == 3
    for (int i = 0; i < 2; i++)
        if (atomic_load(&ready))
            r += x;
#elif WAY == 4
    if (atomic_load(&ready) && x)
        r = 1;
#elif WAY == 5
    r = atomic_load(&ready) ? x : 0;
#elif WAY == 6
    r = *(atomic_load(&ready) ? &x : &y) == 3 ? y : 5;
#elif WAY == 7
    int *p = atomic_load(&ready) ? &x : &y;
    for (int i = 0; i < 2; i++)
        r += *p * 3 + i;
#elif WAY == 8
    int own = 4, *p = atomic_load(&ready) ? &x : &own;
    r = *p + own;
#endif
}

int main(void) {
    int a = thread_spawn(writer, 3), b = thread_spawn(reader, 0);
    thread_join(a);
    thread_join(b);
    return r >= 0;
}
