/* A queue of bounded size, by a mutex and two conditions: who puts waits while it is full, and who takes while it is
   empty. Each of two threads puts two numbers, and the first thread takes all four. */
#include <assert.h>
#include <pthread.h>

enum { SIZE = 2, THREADS = 2, EACH = 2 };

static pthread_mutex_t mutex = PTHREAD_MUTEX_INITIALIZER;
static pthread_cond_t not_full = PTHREAD_COND_INITIALIZER, not_empty = PTHREAD_COND_INITIALIZER;
static int items[SIZE], first, count;

static void put(int item) {
    pthread_mutex_lock(&mutex);
    while (count == SIZE)
        pthread_cond_wait(&not_full, &mutex);
    items[(first + count++) % SIZE] = item;
    pthread_cond_signal(&not_empty);
    pthread_mutex_unlock(&mutex);
}

static int take(void) {
    pthread_mutex_lock(&mutex);
    while (count == 0)
        pthread_cond_wait(&not_empty, &mutex);
    int item = items[first];
    first = (first + 1) % SIZE;
    count--;
    pthread_cond_signal(&not_full);
    pthread_mutex_unlock(&mutex);
    return item;
}

static void *produce(void *me) {
    for (int i = 1; i <= EACH; i++)
        put(10 * (int)me + i);
    return 0;
}

int main(void) {
    int last[THREADS] = {0}, sum = 0;
    pthread_t threads[THREADS];
    for (int i = 0; i < THREADS; i++)
        pthread_create(&threads[i], 0, produce, (void *)i);
    for (int i = 0; i < THREADS * EACH; i++) {
        int item = take();
        assert(item % 10 == ++last[item / 10]); /* those of each thread come in its order */
        sum += item;
    }
    assert(count == 0);
    return sum;
}
