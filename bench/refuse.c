// Refuses one allocation of a program: the one whose number the variable REFUSE has, counted from 1 on. Then it makes the empty
// file that the variable MARK names. For `refused.sh`: cc -shared -fPIC, and LD_PRELOAD.
#define _GNU_SOURCE
#include <dlfcn.h>
#include <errno.h>
#include <fcntl.h>
#include <stdatomic.h>
#include <stdlib.h>
#include <unistd.h>

static atomic_long count;
static long refused;

__attribute__((constructor)) static void start(void) {
    const char *text = getenv("REFUSE");
    refused = text ? atol(text) : 0;
    count = 0;
}

static int refuses(void) {
    if (++count != refused) return 0;
    const char *mark = getenv("MARK");
    if (mark) close(open(mark, O_CREAT | O_WRONLY, 0644));
    errno = ENOMEM;
    return 1;
}

void *malloc(size_t size) {
    static void *(*next)(size_t);
    if (!next) next = dlsym(RTLD_NEXT, "malloc");
    return refuses() ? NULL : next(size);
}

void *realloc(void *old, size_t size) {
    static void *(*next)(void *, size_t);
    if (!next) next = dlsym(RTLD_NEXT, "realloc");
    return refuses() ? NULL : next(old, size);
}
