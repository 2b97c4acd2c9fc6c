/* What the environment may do. Nothing is chosen in a module but which thread comes next: so a thread of the library's own,
   the helper, goes to sleep, and whether it sleeps already where somebody wakes it is a choice. That is one event, by which
   several may ask at once, and whatever it comes to the helper is about to go to sleep again.

   It's always the thread with the last number, so that the program's own have those that they have without it: it becomes
   the next thread that is started, and a new one comes where the next choice is. */
#ifdef NONDET

#ifdef ORDERS
int orders_choose(void); /* choices_orders.c: 0 or 1 */
#else
/* Which thread the helper is, or 0; whether somebody starts a thread, so that all others wait; and whether `main` is there,
   which ends the helper at its end. Who has it started when main isn't there ends it. */
enum { NUMBER = MOST_THREADS - 1, STARTING = MOST_THREADS, MAIN = 2 * MOST_THREADS };
static _Atomic int chooser;
static _Thread_local int ends_chooser;

/* By the helper's number: which start it becomes, or 0 as long as it sleeps and wakes. */
enum { OVER = -1 };
static _Atomic int becomes[MOST_THREADS];

/* Where another function than main was invoked, nobody ends it but the time, which goes by where all are asleep. */
enum { HELPS = 0, HELPS_FOR_A_TIME = -1 };

static void tell_helper(int helper, int what) {
    becomes[helper] = what;
    notify_all(&becomes[helper]);
}

/* Nothing of it is in the frame of who it becomes: it would make more states. */
static __attribute__((noinline)) int help(int thread, int place) {
    int woken;
    do
        woken = wait_while_for(&becomes[thread], 0, place == HELPS ? -1 : INT64_MAX);
    while (!woken);
    return woken == 2 ? OVER : atomic_exchange(&becomes[thread], 0);
}

/* Where a thread begins (start.s). */
void __wathread_begin_at(int thread, int place);
void __wathread_begin(int thread, int place) {
    if (place == HELPS || place == HELPS_FOR_A_TIME)
        place = help(thread, place);
    if (place != OVER)
        __wathread_begin_at(thread, place);
}

static __attribute__((noinline)) _Noreturn void no_thread_is_left_for_nondet(void) { __builtin_trap(); }

/* By who has set STARTING. */
static int start_helper(int main) {
    int made = spawn_at(main || thread_self() ? HELPS : HELPS_FOR_A_TIME);
    if (made < 0)
        no_thread_is_left_for_nondet();
    if (!main)
        ends_chooser = 1;
    chooser = main | made;
    return made;
}

/* The first thread that is started leaves none, so that what main asks before costs nothing behind. Behind the others there
   is one again at once: so it's one thread more, and one ending, whoever asks first. */
static int spawn(int place) {
    int was;
    while ((was = atomic_fetch_or(&chooser, STARTING)) & STARTING)
        ;
    int thread = was & NUMBER;
    if (!thread)
        thread = spawn_at(place);
    if (was & NUMBER && place > 1)
        start_helper(was & MAIN);
    else
        chooser = was & MAIN;
    if (was & NUMBER)
        tell_helper(thread, place);
    return thread;
}

static __attribute__((noinline)) int helper(void) {
    int was = MAIN;
    while (!atomic_compare_exchange_strong(&chooser, &was, was | STARTING)) {
        if (was & NUMBER && !(was & STARTING))
            return was & NUMBER;
        was &= MAIN;
    }
    return start_helper(was);
}

/* Nobody else is there. */
static void call_begins(int main) { *(int *)&chooser = main ? MAIN : 0; }

static void forget_choices(void) {
    for (int thread = 0; thread < MOST_THREADS; thread++)
        *(int *)&becomes[thread] = 0;
}

static void asks_no_more(void) {
    if (thread_self() && !ends_chooser)
        return;
    int was = MAIN;
    while (!atomic_compare_exchange_strong(&chooser, &was, thread_self() ? was & MAIN : 0))
        was &= ~STARTING;
    if (was & NUMBER)
        tell_helper(was & NUMBER, OVER);
}
#endif

/* For rows of `show`: what was chosen, and then 0 again, so that it makes no states. */
static volatile _Thread_local int chosen;

static __attribute__((noinline)) _Noreturn void nondet_of_no_number(void) { __builtin_trap(); }

/* Half of what is left is taken each time. */
int nondet(int low, int high) {
    if (low > high)
        nondet_of_no_number();
    if (low < high) {
#ifdef ORDERS
#define chooses_upper() orders_choose()
#else
        _Atomic int *word = &becomes[helper()];
        notify_all(word); /* so that drawn runs come to both, however long the helper has slept */
#define chooses_upper() notify_all(word)
#endif
        do {
            int middle = low + ((unsigned)high - low) / 2;
            if (chooses_upper())
                low = middle + 1;
            else
                high = middle;
        } while (low < high);
    }
    chosen = low;
    chosen = 0;
    return low;
}

/* Who leaves ends alone, so nobody else may be there. */
static __attribute__((noinline)) _Noreturn void assume_beside_other_threads(void) { __builtin_trap(); }

void assume(int condition) {
    if (condition)
        return;
    if (thread_self())
        assume_beside_other_threads();
    for (int thread = 1; thread <= place_of(last_start) && thread <= __wathread_most(); thread++)
        if (runs(thread))
            assume_beside_other_threads();
    at_its_end = 0;
    __wathread_leave(0);
}
#endif
