/* A failed assertion prints its text, as `puts` does, and is a trap of its own, on its own line: the empty assembly
   statement with the line's number keeps the compiler from making one trap of two. */
#undef assert
#undef WATHREAD_LINE
#undef WATHREAD_TEXT
#ifdef NDEBUG
#define assert(x) ((void)0)
#else
#ifdef __cplusplus
extern "C"
#endif
void __wathread_says(const char *text);
#define WATHREAD_LINE(line) #line
#define WATHREAD_TEXT(text, line) __FILE__ ":" WATHREAD_LINE(line) ": " text
#define assert(x)                                     \
    ((x) ? (void)0 : (__extension__({                 \
        __wathread_says(WATHREAD_TEXT(#x, __LINE__)); \
        __asm__ volatile("" : : "i"(__LINE__));       \
        __builtin_trap();                             \
    })))
#endif
#ifndef __cplusplus
#undef static_assert
#define static_assert _Static_assert
#endif
