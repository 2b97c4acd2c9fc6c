/* A host calls main again over the memory that the call before left: its threads are others, and main waits for them. */
#include "common.h"

static pthread_mutex_t mutex = PTHREAD_MUTEX_INITIALIZER;
static int sum;

static void body(int me) {
    (void)me;
    for (int i = 0; i < R; i++) {
        pthread_mutex_lock(&mutex);
        sum++;
        pthread_mutex_unlock(&mutex);
    }
}

int main(void) {
    int before = sum;
    start_all();
    join_all();
    assert(sum == before + N * R);
    return sum;
}
