/* What examples/rust/wathread.rs calls in place of the macros of wathread.h. */

int wathread_wait(int *word, int value, long long nanoseconds) { return wait_while_for(word, value, nanoseconds); }
int wathread_notify(int *word, int most) { return notify_some(word, most); }
void wathread_print(const char *text, size_t n) { print(text, n, 0); }
