/* A function that only ends inside of a loop, beside a compare-exchange that is masked: an assembler has to take it. */
#include <assert.h>

static _Atomic signed char lock = -1;

__attribute__((noinline)) static const char *find(const char *text, char c) {
    for (;; text++)
        if (*text == c)
            return text;
        else if (!*text)
            return 0;
}

int main(void) {
    signed char free = -1;
    assert(__c11_atomic_compare_exchange_strong(&lock, &free, 0, 5, 5));
    assert(*find("abc", 'b') == 'b' && !find("abc", 'd'));
    return 0;
}
