/* For those who write locks themselves: threads, and how a thread sleeps and wakes others.

   A WORD below is the address of four or eight bytes, as of an _Atomic int or an _Atomic long long: another size is an
   error of the compiler. Who sleeps is asked by the address alone, in order of falling asleep. */
#ifndef WATHREAD_H
#define WATHREAD_H
#include <wathread_c.h>
WATHREAD_BEGIN

/* Starts a thread that calls body(arg), and answers its number, from 1 on, or -1 where pthread_create (pthread.h) would
   answer EAGAIN. Threads have the same numbers in traces: t1, t2 .. */
int thread_spawn(void (*body)(int), int arg);

/* Waits until a thread has ended. */
void thread_join(int thread);

/* The number of the thread that asks; that of `main` is 0. */
int thread_self(void);

#define WATHREAD_WORD(word) _Generic((char (*)[sizeof *(word)])0, char (*)[4]: (void *)(word), char (*)[8]: (void *)(word))

/* In C++ these are functions, since classes have members that are called so, as std::condition_variable::notify_one. */
#ifndef __cplusplus

/* Sleeps until a notify of the same word, if it is VALUE; to look and to fall asleep is one step. Answers 0 where a
   notify woke it, and 1 where the word was another. */
#define wait_while(word, value) wait_while_for(word, value, -1)

/* The same, and wakes by itself, with 2, after so many nanoseconds; a negative number is no end. Time isn't measured: it
   goes by where all threads are asleep, and then the one with the fewest left wakes. */
#define wait_while_for(word, value, nanoseconds)                                                                   \
    (sizeof *(word) == 8                                                                                           \
         ? __builtin_wasm_memory_atomic_wait64((long long *)WATHREAD_WORD(word), (long long)(value), nanoseconds)  \
         : __builtin_wasm_memory_atomic_wait32((int *)WATHREAD_WORD(word), (int)(value), nanoseconds))

/* Wakes one thread that sleeps on the word, or all, or at most so many. Answers how many. */
#define notify_one(word) notify_some(word, 1)
#define notify_all(word) notify_some(word, -1)
#define notify_some(word, most) __builtin_wasm_memory_atomic_notify((int *)WATHREAD_WORD(word), most)

#else
extern "C++" {
#define WATHREAD_FUNCTION __attribute__((always_inline)) inline int
template <class T, class V> WATHREAD_FUNCTION wait_while_for(T *word, V value, long long nanoseconds) {
    return sizeof *word == 8
               ? __builtin_wasm_memory_atomic_wait64((long long *)WATHREAD_WORD(word), (long long)value, nanoseconds)
               : __builtin_wasm_memory_atomic_wait32((int *)WATHREAD_WORD(word), (int)value, nanoseconds);
}
template <class T, class V> WATHREAD_FUNCTION wait_while(T *word, V value) { return wait_while_for(word, value, -1); }
template <class T> WATHREAD_FUNCTION notify_some(T *word, int most) {
    return __builtin_wasm_memory_atomic_notify((int *)WATHREAD_WORD(word), most);
}
template <class T> WATHREAD_FUNCTION notify_one(T *word) { return notify_some(word, 1); }
template <class T> WATHREAD_FUNCTION notify_all(T *word) { return notify_some(word, -1); }
}
#endif

/* With --orders c11 (docs/ORDERS.md): the thread says, as if it printed it, of each atomic of which somebody may still read
   what is old, the newest value, and who may read what. It's an operation like others. Without that it does nothing. */
#define say_views() __wathread_views()
void __wathread_views(void);

/* Any number from LOW to HIGH, both included: what the environment may do. A search with --all goes through all of them, and a
   drawn run takes any. It may be called by any thread. */
int nondet(int low, int high);

/* Where the condition is false, the run doesn't count: `main` is done, with 0 for its answer, and nothing of atexit is called.
   That is for `main` as long as no other thread is there: elsewhere it's a trap, in assume_beside_other_threads. */
void assume(int condition);

/* In front of a function: it can be called by this name, as `--invoke NAME`, beside `main` or in its place. */
#define EXPORT(name) __attribute__((export_name(name)))
WATHREAD_END

#endif
