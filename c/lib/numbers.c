/* Numbers, sorting and chance. */
#include <limits.h>

/* What a digit is worth, or 99. */
static int digit_of(char c) { return c >= '0' && c <= '9' ? c - '0' : isalpha(c) ? (c | 32) - 'a' + 10 : 99; }

/* Reads a number without its sign: ERANGE, and the greatest there is, where it is above `most`. */
static unsigned long long read_number(const char *s, char **end, int base, unsigned long long most, int *minus) {
    const char *p = s;
    unsigned long long value = 0;
    int any = 0, over = 0;
    while (isspace(*p))
        p++;
    *minus = *p == '-';
    if (*p == '-' || *p == '+')
        p++;
    if ((base == 0 || base == 16) && *p == '0' && (p[1] | 32) == 'x' && digit_of(p[2]) < 16)
        p += 2, base = 16;
    if (base == 0)
        base = *p == '0' ? 8 : 10;
    for (int digit; (digit = digit_of(*p)) < base; p++, any = 1) {
        over |= value > (most - digit) / base;
        value = value * base + digit;
    }
    orders_reads(s, p - s + 1);
    if (end)
        *end = (char *)(any ? p : s);
    if (over)
        errno = ERANGE;
    return over ? most : value;
}

/* A number with a sign, from -most - 1 to most. */
static long long read_signed(const char *s, char **end, int base, unsigned long long most) {
    int minus;
    unsigned long long value = read_number(s, end, base, most + 1, &minus);
    if (!minus && value > most)
        return errno = ERANGE, (long long)most;
    return minus ? -value : value;
}

static unsigned long long read_unsigned(const char *s, char **end, int base, unsigned long long most) {
    int minus, before = errno;
    errno = 0;
    unsigned long long value = read_number(s, end, base, most, &minus);
    minus &= errno != ERANGE; /* the greatest one stays */
    errno = errno ? errno : before;
    return minus ? -value : value;
}

long strtol(const char *restrict s, char **restrict end, int base) { return read_signed(s, end, base, LONG_MAX); }
long long strtoll(const char *restrict s, char **restrict end, int base) { return read_signed(s, end, base, LLONG_MAX); }
unsigned long strtoul(const char *restrict s, char **restrict end, int base) { return read_unsigned(s, end, base, ULONG_MAX); }

unsigned long long strtoull(const char *restrict s, char **restrict end, int base) {
    return read_unsigned(s, end, base, ULLONG_MAX);
}

int atoi(const char *s) { return strtol(s, 0, 10); }
long atol(const char *s) { return strtol(s, 0, 10); }
long long atoll(const char *s) { return strtoll(s, 0, 10); }

int abs(int x) { return x < 0 ? -x : x; }
long labs(long x) { return x < 0 ? -x : x; }
long long llabs(long long x) { return x < 0 ? -x : x; }
div_t div(int a, int b) { return (div_t){a / b, a % b}; }
ldiv_t ldiv(long a, long b) { return (ldiv_t){a / b, a % b}; }
lldiv_t lldiv(long long a, long long b) { return (lldiv_t){a / b, a % b}; }

char *getenv(const char *name) { (void)name; return 0; }

/* Each thread has a row of its own, so that no order is in it: the one of the C standard's example. */
static _Thread_local unsigned seed_less_one;

int rand_r(unsigned *seed) {
    *seed = *seed * 1103515245 + 12345;
    return *seed / 65536 % (RAND_MAX + 1u);
}

int rand(void) {
    unsigned seed = seed_less_one + 1;
    int value = rand_r(&seed);
    seed_less_one = seed - 1;
    return value;
}

void srand(unsigned seed) { seed_less_one = seed - 1; }

long random(void) {
    long high = rand(), low = rand();
    return high << 16 | low << 1 | (rand() & 1);
}

void srandom(unsigned seed) { srand(seed); }

static void swap_bytes(char *a, char *b, size_t n) {
    for (; n; n--, a++, b++) {
        char byte = *a;
        *a = *b;
        *b = byte;
    }
}

/* Brings the item at `at` down the heap to where none of the two below it is greater. */
static void sift(char *items, size_t at, size_t count, size_t size, int (*compare)(const void *, const void *)) {
    for (size_t below; (below = 2 * at + 1) < count; at = below) {
        if (below + 1 < count && compare(items + below * size, items + (below + 1) * size) < 0)
            below++;
        if (compare(items + at * size, items + below * size) >= 0)
            return;
        swap_bytes(items + at * size, items + below * size, size);
    }
}

/* Heapsort. */
void qsort(void *items, size_t count, size_t size, int (*compare)(const void *, const void *)) {
    orders_reads(items, count * size);
    orders_writes(items, count * size);
    for (size_t at = count / 2; at--;)
        sift(items, at, count, size, compare);
    while (count-- > 1) {
        swap_bytes(items, (char *)items + count * size, size);
        sift(items, 0, count, size, compare);
    }
}

void *bsearch(const void *key, const void *items, size_t count, size_t size,
              int (*compare)(const void *, const void *)) {
    for (const char *from = items; count;) {
        const char *middle = from + count / 2 * size;
        int order = compare(key, middle);
        if (!order)
            return (void *)middle;
        if (order > 0)
            from = middle + size, count -= count / 2 + 1;
        else
            count /= 2;
    }
    return 0;
}

/* A product of 128 bits, which LLVM calls for a __builtin_mul_overflow of 64. */
__int128 __multi3(__int128 a, __int128 b) {
    uint64_t al = a, bl = b, a0 = (uint32_t)al, a1 = al >> 32, b0 = (uint32_t)bl, b1 = bl >> 32;
    uint64_t low = a0 * b0, mid = a1 * b0 + (low >> 32), mid2 = a0 * b1 + (uint32_t)mid;
    uint64_t high = a1 * b1 + (mid >> 32) + (mid2 >> 32) + (uint64_t)(a >> 64) * bl + al * (uint64_t)(b >> 64);
    return (__int128)((unsigned __int128)high << 64 | (mid2 << 32 | (uint32_t)low));
}

/* ---- Words of a command line ---- */

char *optarg;
int optind = 1, opterr = 1, optopt;

/* A letter that is no option, or has no value, is `?`, or `:` where the letters begin with that. */
int getopt(int count, char *const words[], const char *letters) {
    static int at; /* in a word of several letters */
    const char *word = optind < count ? words[optind] : 0, *found;
    if (!word || word[0] != '-' || !word[1])
        return -1;
    if (!strcmp(word, "--"))
        return optind++, -1;
    at = at ? at : 1;
    int letter = optopt = (unsigned char)word[at++];
    found = letter == ':' ? 0 : strchr(letters, letter);
    int wants = found && found[1] == ':', more = word[at] != 0;
    optarg = wants && more ? (char *)word + at : wants && optind + 1 < count ? words[++optind] : 0;
    if (wants || !more)
        at = 0, optind++;
    return !found ? '?' : wants && !optarg ? (*letters == ':' ? ':' : '?') : letter;
}
