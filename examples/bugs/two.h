/* Two threads beside main, or three: starts them and waits until all have returned. */
#ifndef TWO_H
#define TWO_H
#include <pthread.h>

static void run_all(int count, void *(*const work[])(void *)) {
    pthread_t threads[4];
    for (int i = 0; i < count; i++)
        pthread_create(&threads[i], 0, work[i], (void *)i);
    for (int i = 0; i < count; i++)
        pthread_join(threads[i], 0);
}

#define RUN(...) do { \
        void *(*const to_run[])(void *) = {__VA_ARGS__}; \
        run_all(sizeof to_run / sizeof *to_run, to_run); \
    } while (0)

#endif
