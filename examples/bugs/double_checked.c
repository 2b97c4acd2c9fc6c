/* Double-checked locking: the pointer is published before what it points to is filled in. */
#include <assert.h>
#include <stdatomic.h>
#include <stddef.h>
#include "two.h"

struct config { _Atomic int size; };
static struct config storage;
static struct config *_Atomic config;
static pthread_mutex_t mutex = PTHREAD_MUTEX_INITIALIZER;

static struct config *get(void) {
    struct config *found = config;
    if (found != NULL)
        return found;
    pthread_mutex_lock(&mutex);
    if (config == NULL) {
#ifdef REPAIRED
        storage.size = 64;
        config = &storage;
#else
        config = &storage;
        storage.size = 64;
#endif
    }
    pthread_mutex_unlock(&mutex);
    return config;
}

static void *user(void *arg) {
    assert(get()->size == 64);
    return arg;
}

int main(void) {
    RUN(user, user);
    return 0;
}
