/* main, threads, and how they end. */

void __wasm_call_ctors(void);
__attribute__((weak)) int __main_void(void);
__attribute__((weak)) int __main_argc_argv(int argc, char **argv);
__attribute__((import_module("wasi"), import_name("thread-spawn"))) int __wathread_spawn(int arg);
/* In start.s. */
int __wathread_most(void);
int __wathread_leaving(void);
int __wathread_result(void);
void __wathread_leave(int result);
char *__wathread_values(void);
int __wathread_values_size(void);
int __wathread_stack(void);
char *__wathread_first_values(void);
int __wathread_constructs(void);
int __wathread_came(void);
int __wathread_later(void);
void __wathread_set_later(int later);
int __wathread_owner(void);
int __wathread_lists(int more);
enum { NORMAL = 1, QUICK = 2, CLEANUPS = 4, KEYS = 8 };

enum { MOST_THREADS = 64, MOST_THAT_STAY = MOST_THREADS / 4 };

/* As a pthread_t main has no thread's number: programs take 0 for nobody's. */
enum { MAINS = MOST_THREADS };

/* What a thread calls: the place in the table of functions, and in the two bits above what type is there. */
enum type { POSIX, C11, OWN, TYPE_SHIFT = 30 };

/* What the thread of the Nth start calls, in the upper half, and with which argument. The last one has a bit more where the
   call isn't the first one over its memory (calls.c). */
static uint64_t starts[MOST_THREADS];
static _Atomic int last_start;
enum { LATER = 1 << 30 };
static int place_of(int start) { return start & (LATER - 1); }
#define spawn_at(place) __wathread_spawn((place) + __wathread_later())

/* By the numbers of threads: 0 as long as a thread runs, and then 1 in the upper half and its result in the lower; 2 in the
   upper half where it stayed, and went. */
static _Atomic uint64_t ends[MOST_THREADS];
enum { RUNS, ENDED, WENT };

static _Thread_local uint64_t joined; /* a bit for each that stays */

/* What keys and atexit have called at the end, and behind it: nothing is linked of them where nobody asks for it. */
static _Thread_local void (*at_its_end)(void), (*behind_its_end)(void);
/* main's, by pthread_exit: a return from main is an end of the program, where keys call nothing, and atexit at once. */
static void (*at_mains_exit)(void), (*at_programs_end)(void);
static uint32_t mains_result; /* of pthread_exit, for who joins it */

/* ---- Null pointers: nothing lies in the first bytes of the memory, so that they are zero in a right program. They are
   read by plain loads, which cost a search nothing ---- */

enum { NULL_BYTES = 64 };

static __attribute__((noinline)) _Noreturn void null_pointer_was_written(void) { __builtin_trap(); }

static void test_null(void) {
    const volatile uint64_t *word;
    __asm__("" : "=r"(word) : "0"(0)); /* to clang a load from 0 would be a mistake */
    for (int i = 0; i < NULL_BYTES / 8; i++)
        if (word[i])
            null_pointer_was_written();
}

/* Behind what C++ has there already. */
static void call_then(void (*function)(void)) {
    if (!at_its_end)
        at_its_end = function;
    else if (at_its_end != function)
        behind_its_end = function;
}

/* What is called last may leave too. */
static void call_at_end(void) {
    if (at_its_end)
        at_its_end();
    __wathread_result();
    test_null();
    asks_no_more();
}

/* ---- main ---- */
#ifdef SPURIOUS
static void change_luck(int unused);
static void forget_luck(void);
#else
#define forget_luck() ((void)0)
#endif

/* A host calls a function over the memory that a call before left. Each call begins with thread 0 alone, its threads are
   numbered from 1 again, and none of a call before is there any more. So what is noted of those is forgotten where a call
   begins; the program's own data stay, and thread 0's thread-local ones. Nobody else is there yet, so these are plain
   accesses, and a first call makes one of them. */

enum { MOST_CALLS = 1 << 20, CALL_SHIFT = 8 };

/* Which later call it is, and whether constructors were called (calls.c): in the place of a start that none has. */
enum { LATER_CALLS, CONSTRUCTED };
static int *kept(int which) { return (int *)&starts[0] + which; }

/* So many were started, beside the helper (choices.c). */
static void forget_threads(int many) {
    uint64_t *ended = (uint64_t *)ends;
    for (int thread = 0; thread < MOST_THREADS && thread <= many + 1; thread++)
        ended[thread] = RUNS;
    joined = 0;
    at_its_end = 0;
    forget_choices();
}

/* Threads of a later call are told its number where they begin (start.s). */
static void begin_call(int main) {
    int *last = (int *)&last_start, before = *last;
    if (before) {
        *last = LATER;
        *kept(LATER_CALLS) = *kept(LATER_CALLS) % MOST_CALLS + 1;
        __wathread_set_later(*kept(LATER_CALLS) << CALL_SHIFT);
        if (place_of(before))
            forget_threads(place_of(before));
        forget_luck();
        orders_forget();
    }
    call_begins(main);
}

/* The program's `main`, behind its constructors: where nothing calls these, wasm-ld makes each export do so, that of the
   threads too. */
EXPORT("main") int __wathread_main(void) {
    static char *none;
    __wathread_came();
    begin_call(1);
    __wasm_call_ctors();
#ifdef SPURIOUS
    orders_detached(thread_spawn(change_luck, 0));
#endif
    int result = __main_void ? __main_void() : __main_argc_argv(0, &none);
    result = __wathread_leaving() ? __wathread_result() : result;
    call_at_end();
#ifdef ORDERS
    orders_ends(0, mains_result);
#endif
    return result;
}

/* ---- Threads ---- */

#ifdef ORDERS
/* The runtime starts the thread, or has its helper become that one. */

static int start(enum type type, void *function, void *arg) {
    orders_start_begins();
    int place = place_of(++last_start), made = -1;
    if (place <= __wathread_most()) {
        starts[place] = (uint64_t)((uint32_t)type << TYPE_SHIFT | (uint32_t)function) << 32 | (uint32_t)arg;
        made = orders_spawn(place);
    }
    orders_start_ends(made);
    return made;
}
#else
/* A thread starts once, and there are only so many. So the last quarter of them stay when they have ended, and where no other
   is left, who joined such a one has it begin anew: then nothing has an order by that but what the join gave one. It goes
   where all are asleep, which is when nobody is left who could ask for it. Its stack has its thread-local data as they were
   at first. */
static int stays(int thread) {
    return thread > __wathread_most() - __wathread_most() / 4 && __wathread_values_size() < __wathread_stack() / 2;
}

static uint32_t result_of(int thread);
static uint64_t starts_anew[MOST_THAT_STAY];

static __attribute__((noinline)) int start_anew(uint64_t word) {
    for (; joined; joined &= joined - 1) {
        int thread = __builtin_ctzll(joined);
        uint64_t end = ends[thread];
        starts_anew[thread % MOST_THAT_STAY] = word;
        if (end >> 32 != ENDED || !atomic_compare_exchange_strong(&ends[thread], &end, RUNS))
            continue;
        notify_all(&ends[thread]);
        joined &= joined - 1;
        return thread;
    }
    return -1;
}

/* What to call next, or 0 where the thread is to go. Its thread-local data are then as they were at first. */
static __attribute__((noinline)) uint64_t stay(int thread, const char *values) {
    uint64_t end;
    while ((end = ends[thread]) != RUNS)
        if (wait_while_for(&ends[thread], end, INT64_MAX) == 2 &&
            atomic_compare_exchange_strong(&ends[thread], &end, (uint64_t)WENT << 32 | (uint32_t)end))
            return 0;
    memcpy(__wathread_values(), values, __wathread_values_size());
    return starts_anew[thread % MOST_THAT_STAY];
}

static int start(enum type type, void *function, void *arg) {
    int place = place_of(++last_start);
    uint64_t word = (uint64_t)((uint32_t)type << TYPE_SHIFT | (uint32_t)function) << 32 | (uint32_t)arg;
    if (place > __wathread_most())
        return start_anew(word);
    starts[place] = word;
    return spawn(place);
}
#endif

/* What a thread is started for. Its name begins so that it goes on where the thread leaves (blocks.py). To call a function by
   another type than its own is a trap. */
static inline __attribute__((always_inline)) void __wathread_call(int thread, uint64_t word) {
    uint32_t function = word >> 32 & ((1u << TYPE_SHIFT) - 1), arg = word, result = 0;
    switch ((enum type)(word >> 32 >> TYPE_SHIFT)) {
    case POSIX:
        result = (uint32_t)((void *(*)(void *))function)((void *)arg);
        break;
    case C11:
        result = ((int (*)(void *))function)((void *)arg);
        break;
    default:
        ((void (*)(int))function)(arg);
    }
    result = __wathread_leaving() ? (uint32_t)__wathread_result() : result;
    call_at_end();
#ifdef ORDERS
    orders_ends(thread, result);
#else
    ends[thread] = (uint64_t)ENDED << 32 | result;
    notify_all(&ends[thread]);
#endif
}

#ifdef ORDERS
/* Where a thread begins (start.s). */
void __wathread_begin(int thread, int place) {
    if ((place = orders_begins(thread, place)) >= 0) /* else it was there to choose, and has ended */
        __wathread_call(thread, starts[place]);
}
#else
static __attribute__((noinline)) void __wathread_call_often(int thread, uint64_t word) {
    char values[__wathread_values_size()];
    memcpy(values, __wathread_values(), sizeof values);
    do
        __wathread_call(thread, word);
    while ((word = stay(thread, values)));
}

/* Where a thread begins (start.s). */
void BEGIN_AT(int thread, int place) {
    if (stays(thread))
        __wathread_call_often(thread, starts[place]);
    else
        __wathread_call(thread, starts[place]);
}
#endif

int thread_spawn(void (*body)(int), int arg) { return start(OWN, (void *)body, (void *)arg); }

int pthread_create(pthread_t *thread, const pthread_attr_t *attr, void *(*function)(void *), void *arg) {
    (void)attr;
    int made = start(POSIX, (void *)function, arg);
    if (made < 0)
        return EAGAIN;
    *thread = made;
    return 0;
}

static int number_of(pthread_t thread) { return thread == MAINS ? 0 : thread; }
static int is_nobodys(pthread_t thread) { return thread != MAINS && (thread < 1 || thread >= MOST_THREADS); }

int pthread_detach(pthread_t thread) {
    if (is_nobodys(thread))
        return ESRCH;
    orders_detached(number_of(thread));
    return 0;
}

pthread_t pthread_self(void) { return thread_self() ? thread_self() : MAINS; }
int pthread_equal(pthread_t a, pthread_t b) { return a == b; }

int thrd_create(thrd_t *thread, thrd_start_t function, void *arg) {
    int made = start(C11, (void *)function, arg);
    if (made < 0)
        return thrd_error;
    *thread = made;
    return thrd_success;
}

/* ---- Attributes of a thread: they are kept, and change nothing ---- */

int pthread_attr_init(pthread_attr_t *a) {
    a->detached = PTHREAD_CREATE_JOINABLE;
    a->stack = 4096;
    a->guard = 0;
    return 0;
}

int pthread_attr_destroy(pthread_attr_t *a) { a->stack = 0; return 0; }
int pthread_attr_getdetachstate(const pthread_attr_t *a, int *state) { *state = a->detached; return 0; }
int pthread_attr_getstacksize(const pthread_attr_t *a, size_t *size) { *size = a->stack; return 0; }

int pthread_attr_getguardsize(const pthread_attr_t *a, size_t *size) { *size = a->guard; return 0; }
int pthread_attr_setguardsize(pthread_attr_t *a, size_t size) { a->guard = size; return 0; }
int pthread_attr_getscope(const pthread_attr_t *a, int *scope) { (void)a; *scope = PTHREAD_SCOPE_SYSTEM; return 0; }
int pthread_attr_setscope(pthread_attr_t *a, int scope) { (void)a; return scope == PTHREAD_SCOPE_SYSTEM ? 0 : ENOTSUP; }

int pthread_attr_setdetachstate(pthread_attr_t *a, int state) {
    if (state != PTHREAD_CREATE_JOINABLE && state != PTHREAD_CREATE_DETACHED)
        return EINVAL;
    a->detached = state;
    return 0;
}

int pthread_attr_setstacksize(pthread_attr_t *a, size_t size) {
    if (size < PTHREAD_STACK_MIN)
        return EINVAL;
    a->stack = size;
    return 0;
}

/* ---- Signals: none comes. What a thread blocks is kept for it alone, and who is started begins with none ---- */

static _Thread_local sigset_t blocked;

static int change_signal(sigset_t *set, int number, int is_in) {
    if (number < 1 || number > 64)
        return errno = EINVAL, -1;
    sigset_t bit = 1ull << (number - 1);
    *set = is_in ? *set | bit : *set & ~bit;
    return 0;
}

int sigaddset(sigset_t *set, int number) { return change_signal(set, number, 1); }
int sigdelset(sigset_t *set, int number) { return change_signal(set, number, 0); }

int sigismember(const sigset_t *set, int number) {
    return number < 1 || number > 64 ? errno = EINVAL, -1 : (int)(*set >> (number - 1) & 1);
}

int pthread_sigmask(int how, const sigset_t *set, sigset_t *before) {
    sigset_t now = blocked;
    if (set && (how < SIG_BLOCK || how > SIG_SETMASK))
        return EINVAL;
    if (set)
        blocked = how == SIG_BLOCK ? now | *set : how == SIG_UNBLOCK ? now & ~*set : *set;
    if (before)
        *before = now;
    return 0;
}

int sigprocmask(int how, const sigset_t *set, sigset_t *before) {
    int wrong = pthread_sigmask(how, set, before);
    return wrong ? errno = wrong, -1 : 0;
}

/* ---- Nor is a thread cancelled ---- */

static _Thread_local int cancel_state, cancel_type;

static int set_cancel(int *now, int to, int *before) {
    if (to != 0 && to != 1)
        return EINVAL;
    if (before)
        *before = *now;
    *now = to;
    return 0;
}

int pthread_setcancelstate(int state, int *before) { return set_cancel(&cancel_state, state, before); }
int pthread_setcanceltype(int type, int *before) { return set_cancel(&cancel_type, type, before); }

/* ---- Keys: thread-local data. A number comes once, so that a new key is null in all threads. In a later call those come
   again that were deleted in one before, as far as none behind them is there ---- */

enum { NEAR_KEYS = 32 };

/* The near keys' values are the thread's own. As many others' are made where it first puts one there, so that few bytes lie
   on each stack. */
static _Thread_local void *values[NEAR_KEYS], **far_values[PTHREAD_KEYS_MAX / NEAR_KEYS - 1];
static _Thread_local int values_end; /* behind the last one that the thread has put there */
static _Atomic int destructors[PTHREAD_KEYS_MAX], keys;
#define DELETED (~(__wathread_later() >> 8)) /* in place of a destructor: in which call that was */

static void **value_of(int key);

/* Nobody else has a value there. */
static void take_keys_back(void) {
    if (thread_self() || !__wathread_later() || __wathread_lists(KEYS) & KEYS)
        return;
    for (int many = keys; many;) {
        int last = many - 1, is_there = last < PTHREAD_KEYS_MAX;
        if (is_there && (destructors[last] >= 0 || destructors[last] == DELETED))
            return;
        if (is_there && value_of(last))
            *value_of(last) = 0;
        if (is_there)
            destructors[last] = 0;
        if (atomic_compare_exchange_strong(&keys, &many, last))
            many = last;
    }
}

int pthread_key_create(pthread_key_t *key, void (*destructor)(void *)) {
    take_keys_back();
    int made = keys++;
    if (made >= PTHREAD_KEYS_MAX)
        return EAGAIN;
    if (destructor)
        destructors[made] = (int)destructor;
    *key = made;
    return 0;
}

int pthread_key_delete(pthread_key_t key) {
    if ((unsigned)key >= PTHREAD_KEYS_MAX)
        return EINVAL;
    destructors[key] = DELETED;
    return 0;
}

static void **value_of(int key) {
    if (key < NEAR_KEYS)
        return &values[key];
    void **far = far_values[key / NEAR_KEYS - 1];
    return far ? &far[key % NEAR_KEYS] : 0;
}

/* A destructor may put values there again. */
static void call_destructors(void) {
    for (int round = 0, any = 1; any && round < PTHREAD_DESTRUCTOR_ITERATIONS; round++) {
        any = 0;
        for (int key = 0; key < values_end; key++) {
            void **at = value_of(key), *value = at ? *at : 0;
            int destructor = value ? destructors[key] : 0;
            if (at)
                *at = 0;
            if (destructor > 0) {
                any = 1;
                ((void (*)(void *))destructor)(value);
            }
        }
    }
}

int pthread_setspecific(pthread_key_t key, const void *value) {
    if ((unsigned)key >= PTHREAD_KEYS_MAX)
        return EINVAL;
    void **at = value_of(key);
    if (!at && !value)
        return 0;
    if (!at) {
        void **far = calloc(NEAR_KEYS, sizeof *far);
        if (!far)
            return ENOMEM;
        far_values[key / NEAR_KEYS - 1] = far;
        at = value_of(key);
    }
    *at = (void *)value;
    if (key >= values_end)
        values_end = key + 1;
    if (thread_self())
        call_then(call_destructors);
    else
        at_mains_exit = call_destructors;
    return 0;
}

void *pthread_getspecific(pthread_key_t key) {
    void **at = (unsigned)key < PTHREAD_KEYS_MAX ? value_of(key) : 0;
    return at ? *at : 0;
}

/* ---- The end of a thread, from within ---- */

_Thread_local struct wathread_cleanup *wathread_cleanups;

/* What main's thread has to clean up is of this call, as the lists of atexit are (below). */
static int cleans_up(int more) { return thread_self() || __wathread_lists(more) & CLEANUPS; }

struct wathread_cleanup *__wathread_before_cleanup(void) { return cleans_up(CLEANUPS) ? wathread_cleanups : 0; }

static void leave(uint32_t result) {
    while (cleans_up(0) && wathread_cleanups) {
        struct wathread_cleanup *last = wathread_cleanups;
        wathread_cleanups = last->before;
        last->function(last->arg);
    }
    __wathread_leave(result);
}

/* Others may join main. The program ends with the last of its threads: what atexit was given in this call is called then. */
static int ends_program(void) { return at_programs_end && __wathread_lists(0) & NORMAL; }

#ifdef ORDERS
static void end_main(void) {
    if (ends_program())
        orders_main_left(mains_result);
}
#else
/* A thread is started by one with a lesser number, but where it begins anew: once that may be, nobody is started any more
   where nobody was in two rounds. */
static void wait_for_all(void) {
    int most = __wathread_most(), rounds = 0;
    do {
        int before = last_start;
        for (int thread = 1; thread <= place_of(last_start) && thread <= most; thread++)
            result_of(thread);
        rounds = last_start == before ? rounds + 1 : 0;
    } while (place_of(last_start) > most && rounds < 2);
}

static void end_main(void) {
    if (place_of(last_start)) {
        ends[0] = (uint64_t)ENDED << 32 | mains_result;
        notify_all(&ends[0]);
    }
    if (ends_program())
        wait_for_all();
}
#endif

static void leave_main(void) {
    at_its_end = behind_its_end = 0;
    if (at_mains_exit)
        at_mains_exit();
    end_main();
    if (ends_program())
        at_programs_end();
}

/* main's answer is 0 then. */
void pthread_exit(void *result) {
    if (!thread_self()) {
        mains_result = (uint32_t)result;
        if (!at_its_end || at_its_end == at_programs_end)
            at_its_end = leave_main;
        else
            behind_its_end = leave_main;
    }
    leave(thread_self() ? (uint32_t)result : 0);
}

void thrd_exit(int result) { pthread_exit((void *)result); }

/* ---- The end of the program: main's is a return from main. No thread can end another one: elsewhere, and where something
   is wrong, it is a trap, whose name says what was wanted ---- */

enum { MOST_AT_EXIT = 64 };

struct at_exit {
    struct { void (*function)(void *); void *arg; } calls[MOST_AT_EXIT];
    int count;
};
static struct at_exit normal, quick;

static __attribute__((noinline)) _Noreturn void exit_with_success(void) { __builtin_trap(); }
static __attribute__((noinline)) _Noreturn void exit_with_failure(void) { __builtin_trap(); }

/* A list is of the call that began it: what one before left there isn't called any more. */
static int is_begun(struct at_exit *list, int begins) {
    int bit = list == &normal ? NORMAL : QUICK;
    return thread_self() || __wathread_lists(begins ? bit : 0) & bit;
}

/* Only main's: so these words are one thread's, and no order is in them. */
static int add_at_exit(struct at_exit *list, void (*function)(void *), void *arg) {
    if (thread_self())
        return -1;
    int count = is_begun(list, 1) ? list->count : 0;
    if (count == MOST_AT_EXIT)
        return -1;
    list->calls[count].function = function;
    list->calls[count].arg = arg;
    list->count = count + 1;
    return 0;
}

static void call_at_exit(struct at_exit *list) {
    while (is_begun(list, 0) && list->count) {
        int last = --list->count;
        list->calls[last].function(list->calls[last].arg);
    }
}

static void call_plain(void *function) { ((void (*)(void))function)(); }
static void call_normal(void) { call_at_exit(&normal); }

/* What atexit and C++ have called is one list, from the last one to the first. */
static int add_normal(void (*function)(void *), void *arg) {
    if (add_at_exit(&normal, function, arg))
        return -1;
    call_then(call_normal);
    at_programs_end = call_normal;
    return 0;
}

int atexit(void (*function)(void)) { return add_normal(call_plain, (void *)function); }
int at_quick_exit(void (*function)(void)) { return add_at_exit(&quick, call_plain, (void *)function); }

static void end(int status) {
    if (status)
        exit_with_failure();
    if (thread_self())
        exit_with_success();
    __wathread_leave(0);
}

void _Exit(int status) { at_its_end = 0; end(status); }
void _exit(int status) { _Exit(status); }
void quick_exit(int status) { call_at_exit(&quick); _Exit(status); }
_Noreturn void abort(void) { __builtin_trap(); }

/* Before main's functions have returned, since what is called may look at their variables. */
void exit(int status) {
    if (!thread_self() && at_its_end)
        at_its_end();
    if (!thread_self() && ends_program())
        at_programs_end();
    end(status);
}

_Thread_local int __wathread_errno;
