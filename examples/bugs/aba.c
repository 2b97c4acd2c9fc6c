/* ABA: a stack that is popped by a compare-exchange of its top. Where the top node is taken, and put back while another
   thread stands before its exchange, that thread finds the same top, and makes the top of a node that somebody holds. */
#include <assert.h>
#include <stdatomic.h>
#include "two.h"

enum { NONE = 255 };
static _Atomic unsigned char below[2] = {1, NONE};  /* the node below each node */
static _Atomic unsigned top;                        /* the node at the top; repaired, with a count of changes above it */
static _Atomic int holders[2];

static unsigned with(unsigned old, unsigned node) {
#ifdef REPAIRED
    return (old / 256 + 1) * 256 + node;
#else
    return old / 256 * 256 + node;
#endif
}

static unsigned pop(void) {
    unsigned old = top;
    while (old % 256 != NONE && !atomic_compare_exchange_strong(&top, &old, with(old, below[old % 256])))
        ;
    unsigned node = old % 256;
    if (node != NONE)
        assert(holders[node]++ == 0);
    return node;
}

static void push(unsigned node) {
    holders[node]--;
    unsigned old = top;
    do
        below[node] = (unsigned char)(old % 256);
    while (!atomic_compare_exchange_strong(&top, &old, with(old, node)));
}

static void *takes_one(void *arg) {
    unsigned node = pop();
    if (node != NONE)
        push(node);
    return arg;
}

static void *takes_two(void *arg) {
    unsigned one = pop(), other = pop();
    if (one != NONE)
        push(one);
    unsigned again = pop();
    (void)other;
    (void)again;
    return arg;
}

int main(void) {
    RUN(takes_one, takes_two);
    return 0;
}
