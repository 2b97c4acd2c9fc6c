/* What the library of threads tells the runtime of memory orders (orders.c), in a module that is made with
   `wathread-cc --orders c11`. Users include nothing of this: the compiler calls the runtime at each access. */

#ifdef ORDERS

/* Where a call begins, of `main`, which orders_ends follows, or of another function, which orders_left does. And in front of
   that, where the memory is that of a call before, whose threads are gone. */
void orders_begins_call(int main);
void orders_left(void);
void orders_forget(void);

/* Where a thread is started: between the first and the last call nobody else does anything that is simulated. */
void orders_start_begins(void);
int orders_spawn(int place);          /* in place of thread-spawn; the thread's number, or -1 */
void orders_start_ends(int thread);

/* Where a thread begins, the helper at place 0: the place of the start that it is to be, or -1 where nothing is left. */
int orders_begins(int thread, int place);

/* main has left by pthread_exit: who joins it has this result, and main waits until all others have ended. */
void orders_main_left(unsigned result);

/* A thread's end, with its result. The joins answer 0, or 2 where the time was over first; the look whether it has ended. */
void orders_ends(int thread, unsigned result);
int orders_joins(int thread, unsigned *result, long long nanoseconds);
int orders_has_ended(int thread);
void orders_detached(int thread);

/* Bytes that are read and written by plain accesses. */
void orders_reads(const void *from, unsigned size);
void orders_writes(void *to, unsigned size);

/* A block of malloc's that is freed, and where it is given again. What stands in front of a freed one is its size, in place
   of its mark, so that it's found in a row of such, and who freed it in the last word. */
void orders_freed(void *block, unsigned size);
void orders_taken(void *block, unsigned size);
static inline int orders_front(int size) { return size; }

#else
static inline void orders_begins_call(int main) { (void)main; }
static inline void orders_left(void) {}
static inline void orders_forget(void) {}
static inline void orders_detached(int thread) { (void)thread; }
static inline void orders_reads(const void *from, unsigned size) { (void)from, (void)size; }
static inline void orders_writes(void *to, unsigned size) { (void)to, (void)size; }
static inline void orders_freed(void *block, unsigned size) { (void)block, (void)size; }
static inline void orders_taken(void *block, unsigned size) { (void)block, (void)size; }
static inline int orders_front(int size) { return (void)size, 0; }
#endif
