/* Each of three takes the fork on the left, and then that on the right. Where each has one, all sleep for good. With
   -DRIGHT each takes first the fork with the lower number. */
#include <pthread.h>

enum { PHILOSOPHERS = 3 };

static pthread_mutex_t forks[PHILOSOPHERS];

static void *dine(void *arg) {
    int left = (int)arg, right = (left + 1) % PHILOSOPHERS, first = left, second = right;
#ifdef RIGHT
    if (left > right)
        first = right, second = left;
#endif
    pthread_mutex_lock(&forks[first]);
    pthread_mutex_lock(&forks[second]);
    pthread_mutex_unlock(&forks[second]);
    pthread_mutex_unlock(&forks[first]);
    return 0;
}

int main(void) {
    pthread_t threads[PHILOSOPHERS];
    for (int i = 0; i < PHILOSOPHERS; i++)
        pthread_create(&threads[i], 0, dine, (void *)i);
    for (int i = 0; i < PHILOSOPHERS; i++)
        pthread_join(threads[i], 0);
    return 0;
}
