/* Calls from outside of other functions than main, and what a later call finds (threads.c). */

/* In front of what an exported function does (blocks.py), and behind it: whether it was called from outside, and not by the
   program. Constructors are called once, as long as it isn't main that is called, which always calls them. */
int __wathread_call_begins(void) {
    if (thread_self() || __wathread_came())
        return 0;
    begin_call(0);
    if (__wathread_constructs() && !*kept(CONSTRUCTED)) {
        *kept(CONSTRUCTED) = 1;
        __wasm_call_ctors();
    }
    return 1;
}

void __wathread_call_ends(int begun) {
    if (begun)
        orders_left();
}

/* Thread-local data of a thread of a later call, as they were at first: one before may have left its own there. Where freed
   blocks are given again, that goes on with those of the thread that had the number. */
void __wathread_values_anew(void) {
    char *values = __wathread_values(), *first = __wathread_first_values();
    void *freed = freed_before();
    if (first)
        memcpy(values, first, __wathread_values_size());
    else
        memset(values, 0, __wathread_values_size());
    have_freed(freed);
}
