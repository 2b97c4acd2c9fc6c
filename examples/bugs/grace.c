/* Read-copy-update without waiting for readers: the old copy is wiped while a reader still looks at it. */
#include <assert.h>
#include <stdatomic.h>
#include "two.h"

static _Atomic int copies[2] = {7, 7};
static _Atomic int current, reading;

static void *reader(void *arg) {
    reading = 1;
    int mine = current;
    assert(copies[mine] == 7);
    reading = 0;
    return arg;
}

static void *writer(void *arg) {
    current = 1;
#ifdef REPAIRED
    while (reading)
        ;
#endif
    copies[0] = 0;
    return arg;
}

int main(void) {
    RUN(reader, writer);
    return 0;
}
