/* Strings without regard to case, and older names for what string.h has. */
#ifndef STRINGS_H
#define STRINGS_H
#include <stddef.h>
#include <wathread_c.h>
WATHREAD_BEGIN

int strcasecmp(const char *a, const char *b);
int strncasecmp(const char *a, const char *b, size_t n);
int ffs(int x); /* the number of the lowest bit that is set, from 1 on; 0 where there is none */
int ffsl(long x);
int ffsll(long long x);
int bcmp(const void *a, const void *b, size_t n);
void bcopy(const void *from, void *to, size_t n);
void bzero(void *to, size_t n);
char *index(const char *s, int c);
char *rindex(const char *s, int c);
WATHREAD_END

#endif
