/* The pool: each block has its size in front of it, with a mark. Freeing takes the mark away and writes over the block, by
   plain stores: who uses it then races with that, or finds other values. No block is used again, so that a second free is
   seen; with --reuse a thread gets what it freed itself again, the last one first, where the size is the same. */

#ifndef POOL
#define POOL 16384
#endif
enum { FRONT = 16, MARK = 0x5A000000, MARK_BITS = 0x7F000000, FREED = 0xFE };
static _Alignas(FRONT) char pool[POOL];
static _Atomic size_t used;
static _Thread_local size_t used_then; /* a guess: where nobody else takes of the pool, a block is one access */

static int *front_of(void *block) { return (int *)((char *)block - FRONT); }

#ifdef REUSE
static _Thread_local void *last_freed; /* each has the one before it in its front */

static void **before(void *block) { return (void **)front_of(block) + 1; }

static void *take_freed(size_t size) {
    for (void **at = &last_freed; *at; at = before(*at))
        if (front_of(*at)[2] == (int)size) {
            void *block = *at;
            *at = *before(block);
            return block;
        }
    return 0;
}

static void keep_freed(void *block, size_t size) {
    front_of(block)[2] = size;
    *before(block) = last_freed;
    last_freed = block;
}

static void *freed_before(void) { return last_freed; }
static void have_freed(void *block) { last_freed = block; }
#else
static void *take_freed(size_t size) { (void)size; return 0; }
static void keep_freed(void *block, size_t size) { (void)block, (void)size; }
static void *freed_before(void) { return 0; }
static void have_freed(void *block) { (void)block; }
#endif

static void *take_of_pool(size_t size) {
    size_t at = used_then;
    do
        if (size > POOL - at)
            return 0;
    while (!atomic_compare_exchange_strong(&used, &at, at + size));
    used_then = at + size;
    return pool + at + FRONT;
}

void *malloc(size_t n) {
    if (n > POOL || fails_for_nothing(MALLOC))
        return errno = ENOMEM, (void *)0;
    size_t size = (n + 2 * FRONT - 1) & -FRONT;
    void *block = take_freed(size);
    if (block)
        orders_taken(block, size - FRONT);
    if (!block && !(block = take_of_pool(size)))
        return errno = ENOMEM, (void *)0;
    *front_of(block) = MARK | size;
    return block;
}

/* What lies in front of a block that has to be at a greater alignment is lost. */
void *aligned_alloc(size_t alignment, size_t n) {
    if (!alignment || alignment & (alignment - 1))
        return errno = EINVAL, (void *)0;
    if (alignment <= FRONT)
        return malloc(n);
    size_t size = (n + 2 * FRONT - 1) & -FRONT;
    char *block = n > POOL || alignment > POOL || fails_for_nothing(MALLOC) ? 0 : take_of_pool(size + alignment - FRONT);
    if (!block)
        return errno = ENOMEM, (void *)0;
    block = (char *)(((size_t)block + alignment - 1) & -alignment);
    *front_of(block) = MARK | size;
    return block;
}

int posix_memalign(void **block, size_t alignment, size_t n) {
    int before = errno, wrong;
    void *made = alignment % sizeof(void *) ? 0 : aligned_alloc(alignment, n);
    wrong = made ? 0 : alignment % sizeof(void *) ? EINVAL : errno;
    errno = before;
    if (made)
        *block = made;
    return wrong;
}

void *calloc(size_t count, size_t n) { /* the pool is zero at first */
    void *block = n && count > POOL / n ? 0 : malloc(count * n);
#ifdef REUSE
    if (block)
        memset(block, 0, count * n);
#endif
    return block;
}

void free(void *block) {
    if (!block)
        return;
    int *front = front_of(block), size = *front & ~MARK_BITS;
    if ((*front & MARK_BITS) != MARK)
        __builtin_trap();
    orders_freed(block, size - FRONT);
    *front = orders_front(size);
    memset(block, FREED, size - FRONT);
    keep_freed(block, size);
}

void *realloc(void *block, size_t n) {
    void *made = malloc(n);
    if (block && made) {
        size_t had = (*front_of(block) & ~MARK_BITS) - FRONT;
        memmove(made, block, had < n ? had : n);
        free(block);
    }
    return made;
}
