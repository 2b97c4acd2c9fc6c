/* The locale is that of C, and no other one. */
#ifndef LOCALE_H
#define LOCALE_H
#include <stddef.h>
#include <wathread_c.h>
WATHREAD_BEGIN

enum { LC_CTYPE, LC_NUMERIC, LC_TIME, LC_COLLATE, LC_MONETARY, LC_MESSAGES, LC_ALL };
struct lconv { char *decimal_point, *thousands_sep, *grouping; };
typedef struct wathread_locale *locale_t, *__locale_t;

static inline char *setlocale(int category, const char *name) {
    (void)category;
    return !name || !*name || (*name == 'C' && !name[1]) ? (char *)"C" : (char *)0;
}

static inline struct lconv *localeconv(void) {
    static struct lconv c = {(char *)".", (char *)"", (char *)""};
    return &c;
}
WATHREAD_END

#endif
