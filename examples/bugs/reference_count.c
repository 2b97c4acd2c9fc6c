/* A reference count that is lowered and then looked at: both find zero, and the object is freed twice; or one looks at an
   object that the other has freed. */
#include <assert.h>
#include <stdatomic.h>
#include "two.h"

static _Atomic int references = 2, freed;

static void *drop(void *arg) {
#ifdef REPAIRED
    if (--references == 0)
        assert(freed++ == 0);
#else
    references--;
    if (references == 0)
        assert(freed++ == 0);
#endif
    return arg;
}

int main(void) {
    RUN(drop, drop);
    assert(freed == 1);
    return 0;
}
