/* What text.c and numbers.c make, the same as a libc of this machine: the program prints its lines into one string, and
   -DNATIVE prints that. */
#include <ctype.h>
#include <errno.h>
#include <stdio.h>
#include <stdlib.h>
#include <string.h>

static char all[6000];
static unsigned at;

#define SAY(...)                                                                     \
    do {                                                                             \
        char one[80];                                                                \
        int n = snprintf(one, sizeof one, __VA_ARGS__);                              \
        at += snprintf(all + at, sizeof all - at, "%s|%d|%d\n", one, n, __LINE__);   \
    } while (0)

static int by_value(const void *a, const void *b) { return *(const int *)a - *(const int *)b; }

static void print_numbers(void) {
    static const int values[] = {0, 1, -1, 7, -42, 2147483647, -2147483647 - 1};
    for (int i = 0; i < 7; i++) {
        int x = values[i];
        SAY("%d %i %u %o %x %X", x, x, x, x, x, x);
        SAY("%5d %-5d| %05d %+d % d %+05d %-+6d|", x, x, x, x, x, x, x);
        SAY("%#x %#o %#X %8x %-8x| %08x %#010x", x, x, x, x, x, x, x);
        SAY("%.3d %.0d %8.3d %-8.3d| %08.3d %.12x %#.3o", x, x, x, x, x, x, x);
        SAY("%hd %hhd %hu %hhu", (short)x, (signed char)x, (unsigned short)x, (unsigned char)x);
        SAY("%lld %llu %llx %jd %zu %td", (long long)x * 3000000000, (unsigned long long)x, (long long)x,
            (__INTMAX_TYPE__)x, (size_t)7, (__PTRDIFF_TYPE__)-7);
        SAY("%*d %-*d %.*d %*d", 6, x, 6, x, 4, x, -6, x);
    }
}

static void print_text(void) {
    char small[5];
    SAY("%s %10s %-10s| %.2s %10.2s %-.2s|", "abc", "abc", "abc", "abc", "abc", "abc");
    SAY("%c%c %3c %-3c| 100%%", 'a', 'b', 'c', 'd');
    SAY("%s and %s", "", "text");
    SAY("%d %s", snprintf(small, sizeof small, "%d", 1234567), small);
    SAY("%d", snprintf(0, 0, "%s", "hello"));
    SAY("%d %s", sprintf(small, "%s", "abc"), small);
    SAY("%p", (void *)0);
}

static void print_reads(void) {
    static const char *const texts[] = {"0", "12", " -34x", "+5", "0x1F", "077", "2147483648", "-99999999999", "4294967296",
                                        "99999999999999999999", "-9223372036854775808", "zz", "", "-", "0x", "-1"};
    for (int i = 0; i < 16; i++)
        for (int base = 0; base <= 16; base += base ? 6 : 10) {
            char *end;
            errno = 0;
            long long x = strtoll(texts[i], &end, base);
            SAY("%lld %d %d", x, (int)(end - texts[i]), errno == ERANGE);
            errno = 0;
            unsigned long long y = strtoull(texts[i], &end, base);
            SAY("%llu %d %d %d", y, (int)(end - texts[i]), errno == ERANGE, atoi("-17 "));
        }
}

static void print_older(void) {
    char to[8] = "zzzzzzz";
    SAY("%d %d %d", strcasecmp("Hello", "hELLO"), strcasecmp("abc", "ABD") < 0, strcasecmp("b", "A") > 0);
    SAY("%d %d %d", strncasecmp("abcX", "ABCy", 3), strncasecmp("abcX", "ABCy", 4) < 0, strncasecmp("a", "b", 0));
    SAY("%d %d %d %d", ffs(0), ffs(12), ffs(1 << 31), ffs(-1));
    SAY("%d %d %s", memccpy(to, "one two", ' ', 7) == to + 4, memccpy(to, "xy", 'z', 2) == 0, to);
    SAY("%s %s %d", index("a/b/c", '/'), rindex("a/b/c", '/'), bcmp("ab", "ac", 1));
    bcopy("12345", to, 6);
    bzero(to + 1, 1);
    SAY("%s %s", to, to + 2);
    srandom(7);
    long first = random(), second = random();
    srandom(7);
    SAY("%d %d %d", first == random(), second == random(), first >= 0 && first != second);
    flockfile(stdout);
    SAY("%d %d", ftrylockfile(stdout), putc_unlocked('x', stdout));
    funlockfile(stdout);
    funlockfile(stdout);
}

static void print_rest(void) {
    int numbers[9] = {5, -3, 9, 0, 5, 100, -7, 2, 1}, key = 9, none = 4;
    char list[] = "  one, two,,three ", *rest, tail[12] = "abc";
    qsort(numbers, 9, sizeof *numbers, by_value);
    for (int i = 0; i < 9; i++)
        SAY("%d", numbers[i]);
    SAY("%d %d", (int)((int *)bsearch(&key, numbers, 9, sizeof key, by_value) - numbers),
        bsearch(&none, numbers, 9, sizeof none, by_value) != 0);
    for (char *word = strtok_r(list, " ,", &rest); word; word = strtok_r(0, " ,", &rest))
        SAY("%s", word);
    SAY("%s %s", strcat(tail, "def"), strncat(tail, "ghijk", 3));
    SAY("%s %s %d", strrchr("a/b/c", '/'), strstr("one two", "two"), strstr("one", "two") != 0);
    SAY("%d %d %s", (int)strspn("aabc", "ab"), (int)strcspn("aabc", "c"), strpbrk("hello", "lo"));
    SAY("%d %d", memchr("abc", 'c', 2) != 0, memchr("abc", 'c', 3) != 0);
    SAY("%s %d %s", strncpy(tail, "xy", 6), tail[5], strerror(EINVAL));
    SAY("%d %d %d", div(-7, 2).quot, div(-7, 2).rem, abs(-5));
    for (int c = -1; c < 128; c += 3)
        SAY("%d%d%d%d%d %d", !!isalpha(c), !!isspace(c), !!ispunct(c), !!isxdigit(c), !!iscntrl(c), toupper(c));
}

int main(void) {
    unsigned sum = 0;
    print_numbers();
    print_text();
    print_reads();
    print_older();
    print_rest();
    for (unsigned i = 0; i < at; i++)
        sum = sum * 31 + (unsigned char)all[i];
#ifdef NATIVE
    fputs(all, stdout);
    fprintf(stderr, "%u\n", sum);
#endif
    return sum;
}
