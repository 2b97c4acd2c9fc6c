/* Two threads that add, each in the lock: the least program that shows most of what there is. */
#include <assert.h>
#include <pthread.h>

#include "lock.h"

int lock_take(struct lib_lock *lock), lock_give(struct lib_lock *lock);

static struct lib_lock lock;
static int sum;

static void *add(void *unused) {
    lock_take(&lock);
    sum++;
    lock_give(&lock);
    return unused;
}

int main(void) {
    pthread_t threads[2];
    for (int i = 0; i < 2; i++)
        pthread_create(&threads[i], 0, add, 0);
    for (int i = 0; i < 2; i++)
        pthread_join(threads[i], 0);
    assert(sum == 2);
    return 0;
}
