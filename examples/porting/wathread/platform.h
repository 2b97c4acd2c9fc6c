/* The same steps for wathread: `-I wathread` in place of `-I linux`. */
#ifndef PLATFORM_H
#define PLATFORM_H
#include <wathread.h>

#define LIB_SPINS 1 /* each round more is a state more, and shows nothing new */

static inline int lib_cas(volatile int *word, int old, int new) { return __sync_val_compare_and_swap(word, old, new); }
static inline int lib_swap(volatile int *word, int new) { return __atomic_exchange_n(word, new, __ATOMIC_SEQ_CST); }
static inline void lib_add(volatile int *word, int more) { __sync_fetch_and_add(word, more); }
static inline void lib_pause(void) {}
static inline void lib_sleep(volatile int *word, int value) { wait_while(word, value); }
static inline void lib_wake(volatile int *word, int most) { notify_some(word, most); }

#endif
