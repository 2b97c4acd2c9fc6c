/* A queue, and clients of which nobody says what they do: how many rounds, and in each a put or a take, as the environment
   has it. So one program stands for six clients beside two.

   With -DHASTY a put looks for room in front of the lock, and some pair of clients finds that out. */
#include <assert.h>
#include <pthread.h>
#include <wathread.h>

enum { PLACES = 1 };

static pthread_spinlock_t lock;
static int first, behind; /* which is taken next, and which comes next */

static int put(void) {
#ifdef HASTY
    pthread_spin_lock(&lock);
    int is_full = behind - first == PLACES;
    pthread_spin_unlock(&lock);
    pthread_spin_lock(&lock);
#else
    pthread_spin_lock(&lock);
    int is_full = behind - first == PLACES;
#endif
    if (!is_full)
        behind++;
    assert(behind - first <= PLACES);
    pthread_spin_unlock(&lock);
    return !is_full;
}

static int take(void) {
    pthread_spin_lock(&lock);
    int is_empty = behind == first;
    if (!is_empty)
        first++;
    pthread_spin_unlock(&lock);
    return is_empty ? 0 : -1;
}

/* A bit for each round, and a 1 above them. Answers by how much the queue is longer. */
static void *client(void *chosen) {
    int longer = 0;
    for (int plan = (int)chosen; plan > 1; plan >>= 1)
        longer += plan & 1 ? take() : put();
    return (void *)longer;
}

int main(void) {
    pthread_t one, two;
    void *longer[2];
    int plans[] = {nondet(2, 7), nondet(2, 3)};
    assume(plans[0] >= plans[1]); /* the other pair is there by exchanged names */
    pthread_create(&one, 0, client, (void *)plans[0]);
    pthread_create(&two, 0, client, (void *)plans[1]);
    pthread_join(one, &longer[0]);
    pthread_join(two, &longer[1]);
    assert(behind - first == (int)longer[0] + (int)longer[1]);
    return 0;
}
