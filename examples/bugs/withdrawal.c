/* Atomicity of two accesses: the balance is looked at in one critical section and changed in another. */
#include <assert.h>
#include "two.h"

static pthread_mutex_t mutex = PTHREAD_MUTEX_INITIALIZER;
static int balance = 10;

static void *withdraw(void *arg) {
    pthread_mutex_lock(&mutex);
    int enough = balance >= 10;
#ifndef REPAIRED
    pthread_mutex_unlock(&mutex);
    pthread_mutex_lock(&mutex);
#endif
    if (enough)
        balance -= 10;
    pthread_mutex_unlock(&mutex);
    return arg;
}

int main(void) {
    RUN(withdraw, withdraw);
    assert(balance == 0);
    return 0;
}
