/* The names alone: a function of WebAssembly is left by a return, and none is come back to. */
#ifndef SETJMP_H
#define SETJMP_H
#include <wathread_c.h>
WATHREAD_BEGIN

typedef int jmp_buf[1], sigjmp_buf[1];

#define WATHREAD_NO __attribute__((unavailable("wathread has no jumps between functions: return, or end the thread by pthread_exit")))
WATHREAD_NO int setjmp(jmp_buf place);
WATHREAD_NO int sigsetjmp(sigjmp_buf place, int mask);
WATHREAD_NO void longjmp(jmp_buf place, int value);
WATHREAD_NO void siglongjmp(sigjmp_buf place, int value);
#undef WATHREAD_NO
WATHREAD_END

#endif
