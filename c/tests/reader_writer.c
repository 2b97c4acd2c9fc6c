/* The first W threads write both words under the writers' lock; the others read them under the readers', and find them
   the same. No increment is lost. */
#include "common.h"

#ifndef W
#define W 1
#endif

static pthread_rwlock_t lock = PTHREAD_RWLOCK_INITIALIZER;
static int left, right;

static void write_both(void) {
    pthread_rwlock_wrlock(&lock);
    left++;
    right++;
    pthread_rwlock_unlock(&lock);
}

static void read_both(void) {
#ifndef BUG /* readers don't lock */
    pthread_rwlock_rdlock(&lock);
#endif
    assert(left == right);
#ifndef BUG
    pthread_rwlock_unlock(&lock);
#endif
}

static void body(int me) {
    for (int i = 0; i < R; i++)
        if (me < W)
            write_both();
        else
            read_both();
}

int main(void) {
    start_all();
    join_all();
    assert(left == W * R && right == left);
    return left;
}
