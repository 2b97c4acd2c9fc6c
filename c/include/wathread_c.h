/* How the headers declare what they have. */
#ifndef WATHREAD_C_H
#define WATHREAD_C_H

/* The library is C, for C++ too. */
#ifdef __cplusplus
#define WATHREAD_BEGIN extern "C" {
#define WATHREAD_END }
#else
#define WATHREAD_BEGIN
#define WATHREAD_END
#endif

/* Behind a call of such a function nothing more is done. The library, which has them return, knows better. */
#ifdef WATHREAD_LIBRARY
#define WATHREAD_LEAVES
#elif defined(__cplusplus)
#define WATHREAD_LEAVES [[noreturn]]
#else
#define WATHREAD_LEAVES _Noreturn
#endif

#endif
