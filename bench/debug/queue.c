// A queue with a lock: functions that are put in the place of their calls, parameters and locals.
#include <stdatomic.h>
#include <stdint.h>

#define LENGTH 4

struct item {
    int16_t key;
    struct item *next;
    union {
        uint64_t whole;
        struct {
            uint32_t low, high;
        };
    } value;
};

typedef struct item slots_t[LENGTH];

static struct queue {
    _Atomic int lock;
    unsigned head : 3, tail : 3;
    _Bool closed;
    slots_t slots;
    struct item *(*pick)(struct item *, int);
} queues[2], *current = queues;

static volatile uint8_t grid[2][3][5];

static inline void lock(struct queue *q) {
    int expected = 0;
    while (!atomic_compare_exchange_weak(&q->lock, &expected, 1))
        expected = 0;
}

static inline void unlock(struct queue *q) {
    atomic_store(&q->lock, 0);
}

static inline struct item *take(struct queue *q) {
    struct item *found = 0;
    lock(q);
    if (q->head != q->tail) {
        unsigned at = q->head;
        found = &q->slots[at % LENGTH];
        q->head = at + 1;
    }
    unlock(q);
    return found;
}

__attribute__((noinline)) static int put(struct queue *q, const struct item *what) {
    static unsigned long long puts;
    lock(q);
    unsigned at = q->tail;
    q->slots[at % LENGTH] = *what;
    q->tail = at + 1;
    puts++;
    unlock(q);
    return (int)puts;
}

static void *run(void *arg) {
    struct queue *mine = arg;
    for (int i = 0; i < 3; i++) {
        struct item made = {(int16_t)i, 0, {(uint64_t)i << 33}};
        put(mine, &made);
        struct item *got = take(mine);
        if (got)
            grid[i % 2][i][got->key]++;
    }
    return mine;
}

int main(void) {
    run(&queues[0]);
    run(current + 1);
    return grid[1][1][1] + queues[1].closed;
}
