/* What a module of the profile needs of its host and of its instructions. */
#ifndef THREADS_H
#define THREADS_H

#define EXPORT(name) __attribute__((export_name(name)))

__attribute__((import_module("wasi"), import_name("thread-spawn"))) int thread_spawn(int arg);

/* Sleeps while the word is still this one, until a notify comes. */
static inline void wait_while(_Atomic int *word, int value) {
    __builtin_wasm_memory_atomic_wait32((int *)word, value, -1);
}

static inline void notify_all(_Atomic int *word) {
    __builtin_wasm_memory_atomic_notify((int *)word, -1);
}

static inline void notify_one(_Atomic int *word) {
    __builtin_wasm_memory_atomic_notify((int *)word, 1);
}

#endif
