// What C++ wants of the library: a static variable of a function, which one thread makes while the others wait, virtual
// functions, blocks, and destructors at the end of main, of a thread, and of what a thread leaves.
#include <assert.h>
#include <pthread.h>
#include <stdlib.h>
#include <threads.h>

#ifndef N
#define N 2
#endif

static int made;

struct Thing {
    int value;
    explicit Thing(int v) : value(v) { made++; }
    virtual ~Thing() { made--; }
    virtual int get() { return value; }
};

struct Other : Thing {
    Other() : Thing(0) {}
    int get() override { return 7; }
};

static Thing &one() {
#ifdef BUG /* each thread has its own */
    static thread_local int mine;
    return *new Thing(mine);
#else
    static Other thing;
    return thing;
#endif
}

static int ends;

struct Local { // of each thread
    int value = 3;
    ~Local() { ends += value; }
};
static thread_local Local local;

static void *first(void *) { // alone
    assert(local.value == 3 && ends == 0);
    return nullptr;
}

static void *body(void *) {
    Thing *found = &one();
    if (found->get() != 7)
        thrd_exit(3);
    pthread_exit(found);
}

static void last() { assert(made == 1); } // what is static is still there

int main() {
    pthread_t threads[N];
    void *found[N];
    atexit(last);
    pthread_create(&threads[0], nullptr, first, nullptr);
    pthread_join(threads[0], nullptr);
    assert(ends == 3);
    for (pthread_t &thread : threads)
        assert(pthread_create(&thread, nullptr, body, nullptr) == 0);
    for (int i = 0; i < N; i++)
        pthread_join(threads[i], &found[i]);
    assert(found[0] == found[N - 1] && found[0] == &one());
    Thing *some = new Other;
    assert(some->get() == 7 && made == 2);
    delete some;
    return 0;
}
