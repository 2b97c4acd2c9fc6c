#include <pthread.h>
#include <stdatomic.h>
#include <stdint.h>
#include <stdbool.h>
#include <assert.h>
#include <wathread.h>

enum color { RED, GREEN = 7, BLUE };
struct item { uint8_t kind; int16_t delta; struct item *next; unsigned ready : 1; signed level : 3; unsigned count : 12; };
union word { int32_t whole; uint8_t bytes[4]; };
struct queue { _Atomic int lock; struct item *head; int slots[4]; };

static struct queue queue;
static struct item items[6];
static _Atomic int turns;

static inline void lock(_Atomic int *word) {
    int seen = 0;
    while (!atomic_compare_exchange_strong(word, &seen, 1)) {
        seen = 0;
    }
}
static inline void unlock(_Atomic int *word) { atomic_store(word, 0); }

static inline struct item *take(struct queue *q, int number) {
    lock(&q->lock);
    struct item *first = q->head;
    if (first) q->head = first->next;
    q->slots[number & 3] -= number;
    unlock(&q->lock);
    return first;
}

__attribute__((noinline)) static int depth(int n, int64_t wide) {
    struct item here = { .kind = 200, .delta = -5, .next = &items[n], .ready = 1, .level = -3, .count = 77 };
    union word w = { .whole = -2 };
    enum color c = n & 1 ? GREEN : BLUE;
    volatile int grid[2][3] = { { 1, 2, 3 }, { 4, 5, -n } };
    struct item *p = &here;
    if (n == 0) { atomic_fetch_add(&turns, 1); return p->delta + w.bytes[0] + c + grid[1][2]; }
    return depth(n - 1, wide - 1) + p->level + c + grid[0][n & 1] + (int)w.bytes[1];
}

static void *body(void *arg) {
    int id = (int)(intptr_t)arg;
    bool odd = id & 1;
    char letter = 'a' + id;
    for (int round = 0; round < 2; round++) {
        struct item *mine = take(&queue, id);
        if (mine) mine->delta -= id;
        struct item *more = take(&queue, id + 1);
        if (more && odd) more->kind += letter;
    }
    return (void *)(intptr_t)depth(3, -7000000000LL);
}

int main(void) {
    pthread_t t[2];
    for (int i = 0; i < 5; i++) { items[i].next = &items[i + 1]; items[i].level = -1; }
    queue.head = &items[0];
    for (int i = 0; i < 2; i++) pthread_create(&t[i], 0, body, (void *)(intptr_t)(i + 1));
    for (int i = 0; i < 2; i++) pthread_join(t[i], 0);
    return turns;
}
