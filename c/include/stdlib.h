/* A pool of --pool bytes, the end of the program, and what C has of numbers, chance and sorting. */
#ifndef STDLIB_H
#define STDLIB_H
#include <stddef.h>
#include <wathread_c.h>
WATHREAD_BEGIN

#define EXIT_SUCCESS 0
#define EXIT_FAILURE 1
#define RAND_MAX 32767

/* Null where the pool is used up: what was freed isn't used again, but with --reuse. */
void *malloc(size_t n);
void *calloc(size_t count, size_t n);
void *realloc(void *block, size_t n);
void *aligned_alloc(size_t alignment, size_t n); /* what is above 16 costs so much more of the pool */
int posix_memalign(void **block, size_t alignment, size_t n);
void free(void *block); /* traps where the block was freed, or is none of malloc's; writes over it */

/* exit(0) by main's thread is a return from main, in which the others go on. No thread can end another one: so exit(0) by
   a started thread is a trap, in exit_with_success, and each exit with another status is one in exit_with_failure. */
int atexit(void (*function)(void)); /* not 0 where it isn't main's thread */
int at_quick_exit(void (*function)(void));
WATHREAD_LEAVES void exit(int status);
WATHREAD_LEAVES void quick_exit(int status);
WATHREAD_LEAVES void _Exit(int status);
_Noreturn void abort(void); /* a trap */

int atoi(const char *s);
long atol(const char *s);
long long atoll(const char *s);
long strtol(const char *__restrict s, char **__restrict end, int base);
long long strtoll(const char *__restrict s, char **__restrict end, int base);
unsigned long strtoul(const char *__restrict s, char **__restrict end, int base);
unsigned long long strtoull(const char *__restrict s, char **__restrict end, int base);

typedef struct { int quot, rem; } div_t;
typedef struct { long quot, rem; } ldiv_t;
typedef struct { long long quot, rem; } lldiv_t;
int abs(int x);
long labs(long x);
long long llabs(long long x);
div_t div(int a, int b);
ldiv_t ldiv(long a, long b);
lldiv_t lldiv(long long a, long long b);

/* Each thread has a row of its own, which srand begins anew for it alone. */
int rand(void);
void srand(unsigned seed);
int rand_r(unsigned *seed);
long random(void); /* of 31 bits, by the same row */
void srandom(unsigned seed);

void qsort(void *items, size_t count, size_t size, int (*compare)(const void *, const void *));
void *bsearch(const void *key, const void *items, size_t count, size_t size, int (*compare)(const void *, const void *));
char *getenv(const char *name); /* null */

#define WATHREAD_NO(what) __attribute__((unavailable("wathread has no " what)))
WATHREAD_NO("processes: a module is one program, alone") int system(const char *words);
#ifdef __cplusplus /* <string> names them */
#define WATHREAD_FLOAT
#else
#define WATHREAD_FLOAT WATHREAD_NO("floats")
#endif
WATHREAD_FLOAT double atof(const char *s);
WATHREAD_FLOAT double strtod(const char *__restrict s, char **__restrict end);
WATHREAD_FLOAT float strtof(const char *__restrict s, char **__restrict end);
WATHREAD_FLOAT long double strtold(const char *__restrict s, char **__restrict end);
#undef WATHREAD_FLOAT
#define WATHREAD_WIDE WATHREAD_NO("letters of several bytes")
WATHREAD_WIDE int mblen(const char *s, size_t n);
WATHREAD_WIDE int mbtowc(wchar_t *__restrict to, const char *__restrict s, size_t n);
WATHREAD_WIDE int wctomb(char *to, wchar_t letter);
WATHREAD_WIDE size_t mbstowcs(wchar_t *__restrict to, const char *__restrict from, size_t n);
WATHREAD_WIDE size_t wcstombs(char *__restrict to, const wchar_t *__restrict from, size_t n);
#undef WATHREAD_WIDE
#undef WATHREAD_NO
WATHREAD_END

#endif
