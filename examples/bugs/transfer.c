/* Atomicity of three accesses: a transfer takes from one account and gives to the other, each under its own lock; who adds
   up both in between finds less than there is. */
#include <assert.h>
#include "two.h"

static pthread_mutex_t locks[2];
static int accounts[2] = {10, 10};

static void change(int account, int by) {
    pthread_mutex_lock(&locks[account]);
    accounts[account] += by;
    pthread_mutex_unlock(&locks[account]);
}

static void *transfer(void *arg) {
#ifdef REPAIRED
    pthread_mutex_lock(&locks[0]);
    pthread_mutex_lock(&locks[1]);
    accounts[0] -= 5;
    accounts[1] += 5;
    pthread_mutex_unlock(&locks[1]);
    pthread_mutex_unlock(&locks[0]);
    (void)change;
#else
    change(0, -5);
    change(1, 5);
#endif
    return arg;
}

static void *audit(void *arg) {
    pthread_mutex_lock(&locks[0]);
    pthread_mutex_lock(&locks[1]);
    assert(accounts[0] + accounts[1] == 20);
    pthread_mutex_unlock(&locks[1]);
    pthread_mutex_unlock(&locks[0]);
    return arg;
}

int main(void) {
    RUN(transfer, audit);
    return 0;
}
