/* What C++ calls: blocks, static variables of a function, and what is called at the end. The names are those that the
   compiler makes of `operator new(unsigned long)` and the like. */

void *_Znwm(unsigned long n) {
    void *block = malloc(n);
    if (!block)
        __builtin_trap();
    return block;
}

void *_ZnwmSt11align_val_t(unsigned long n, unsigned long alignment) {
    void *block = aligned_alloc(alignment, n);
    if (!block)
        __builtin_trap();
    return block;
}

void *_Znam(unsigned long n) { return _Znwm(n); }
void *_ZnamSt11align_val_t(unsigned long n, unsigned long alignment) { return _ZnwmSt11align_val_t(n, alignment); }
void _ZdlPv(void *block) { free(block); }
void _ZdaPv(void *block) { free(block); }
void _ZdlPvm(void *block, unsigned long n) { (void)n, free(block); }
void _ZdaPvm(void *block, unsigned long n) { (void)n, free(block); }
void _ZdlPvSt11align_val_t(void *block, unsigned long alignment) { (void)alignment, free(block); }
void _ZdaPvSt11align_val_t(void *block, unsigned long alignment) { (void)alignment, free(block); }
void _ZdlPvmSt11align_val_t(void *block, unsigned long n, unsigned long alignment) { (void)n, (void)alignment, free(block); }
void _ZdaPvmSt11align_val_t(void *block, unsigned long n, unsigned long alignment) { (void)n, (void)alignment, free(block); }

_Noreturn void __cxa_pure_virtual(void) { __builtin_trap(); }

/* A static variable of a function: the compiler looks at the first byte, which is 1 once it is made. The second one says
   whether somebody makes it. Who waits for that sleeps on one word of all. */
static _Atomic int guards_done;

int __cxa_guard_acquire(_Atomic char *guard) {
    char made = NOT_YET;
    while (!atomic_compare_exchange_strong(guard + 1, &made, RUNNING)) {
        int done = guards_done;
        if (made == DONE)
            return 0;
        if (guard[1] == RUNNING)
            wait_while(&guards_done, done);
        made = NOT_YET;
    }
    return 1;
}

static void end_guard(_Atomic char *guard, char made) {
    guard[1] = made;
    ++guards_done;
    notify_all(&guards_done);
}

void __cxa_guard_release(_Atomic char *guard) {
    guard[0] = 1;
    end_guard(guard, DONE);
}

void __cxa_guard_abort(_Atomic char *guard) { end_guard(guard, NOT_YET); }

/* Destructors of static variables that main's thread made are called at its end. */
void *__dso_handle;

static __attribute__((noinline)) _Noreturn void too_many_destructors(void) { __builtin_trap(); }

int __cxa_atexit(void (*function)(void *), void *arg, void *handle) {
    (void)handle;
    if (thread_self())
        return -1;
    if (add_normal(function, arg))
        too_many_destructors();
    return 0;
}

enum { MOST_OWN_DESTROYS = 32 };

/* Those of thread-local variables at the end of their thread, before what keys and atexit have called. */
static _Thread_local struct { void (*function)(void *); void *arg; } own_destroys[MOST_OWN_DESTROYS];
static _Thread_local int own_destroys_left;

static void call_own_destroys(void) {
    while (own_destroys_left) {
        int last = --own_destroys_left;
        own_destroys[last].function(own_destroys[last].arg);
    }
    if (behind_its_end)
        behind_its_end();
}

int __cxa_thread_atexit(void (*function)(void *), void *arg, void *handle) {
    (void)handle;
    if (own_destroys_left == MOST_OWN_DESTROYS)
        too_many_destructors();
    if (at_its_end != call_own_destroys) {
        behind_its_end = at_its_end;
        at_its_end = call_own_destroys;
    }
    own_destroys[own_destroys_left].function = function;
    own_destroys[own_destroys_left++].arg = arg;
    return 0;
}
