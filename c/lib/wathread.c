/* The library that wathread-cc links to each module: threads, what they wait by, and some of the C library. What isn't
   used of it is left out. Each word that threads share is changed by as few accesses as will do, since a search goes
   through their orders; a wait or a notify comes only where somebody may need it. All of it is compiled as one file. */
#define WATHREAD_LIBRARY
#include <ctype.h>
#include <errno.h>
#include <linux/futex.h>
#include <pthread.h>
#include <semaphore.h>
#include <signal.h>
#include <stdarg.h>
#include <stdatomic.h>
#include <stddef.h>
#include <stdint.h>
#include <stdio.h>
#include <stdlib.h>
#include <string.h>
#include <sys/syscall.h>
#include <sys/time.h>
#include <threads.h>
#include <time.h>
#include <unistd.h>
#include <wathread.h>

/* With --orders c11 locks are simulated as the program is (simulate.py), and what is marked so stays as it is: nobody else
   sees what it touches, or it tells the runtime itself. */
#include "orders.h"
#include "choices.h"
#ifdef ORDERS
#pragma clang attribute push(__attribute__((disable_sanitizer_instrumentation)), apply_to = function)
#endif
#include "threads.c"
#include "waits.c"
#ifdef ORDERS
#pragma clang attribute pop
#endif
#include "mutex.c"
#include "condition.c"
#include "locks.c"
#ifdef ORDERS
#pragma clang attribute push(__attribute__((disable_sanitizer_instrumentation)), apply_to = function)
#endif
#include "heap.c"
#include "bytes.c"
#include "numbers.c"
#include "text.c"
#include "choices.c"
#include "calls.c"
#ifdef ORDERS
#pragma clang attribute pop
#endif
#include "cxx.c"
#include "cxx_std.c"
#include "rust.c"
