/* A pointer that one thread sets and another one may use too early. */
#include "common.h"

static struct box { int before, value; } boxes[N], *_Atomic box[N + 1];

static void body(int me) {
    box[me] = &boxes[me];
#ifdef BUG /* nobody waits until the other one has set it */
    struct box *other = box[(me + 1) % N];
#else
    struct box *other;
    while (!(other = box[(me + 1) % N])) {}
#endif
    __asm__("" : "+r"(other)); /* clang doesn't know of null */
    other->value = me;
}

int main(void) {
    start_all();
    join_all();
    return 0;
}
