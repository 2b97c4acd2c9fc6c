/* Bytes and strings: whole words where they can be, since each access is an entry. With --orders the first three are told
   where they are called (simulate.py), and the others tell of what they touch. */

void *memmove(void *to, const void *from, size_t n) {
    char *p = to;
    const char *q = from;
    if (p > q && p < q + n) {
        while (n--)
            p[n] = q[n];
        return to;
    }
    size_t both = (size_t)p | (size_t)q;
    if (!(both & 7))
        for (; n >= 8; n -= 8, p += 8, q += 8)
            *(uint64_t *)p = *(const uint64_t *)q;
    if (!(both & 3))
        for (; n >= 4; n -= 4, p += 4, q += 4)
            *(uint32_t *)p = *(const uint32_t *)q;
    for (; n; n--)
        *p++ = *q++;
    return to;
}

void *memset(void *to, int byte, size_t n) {
    char *p = to;
    uint64_t word = 0x0101010101010101u * (unsigned char)byte;
    if (!((size_t)p & 7))
        for (; n >= 8; n -= 8, p += 8)
            *(uint64_t *)p = word;
    if (!((size_t)p & 3))
        for (; n >= 4; n -= 4, p += 4)
            *(uint32_t *)p = word;
    for (; n; n--)
        *p++ = byte;
    return to;
}

void *memcpy(void *restrict to, const void *restrict from, size_t n) { return memmove(to, from, n); }

/* What wathread-link puts in place of memory.copy and memory.fill. */
void __wathread_copy(void *to, const void *from, size_t n) { memmove(to, from, n); }
void __wathread_fill(void *to, int byte, size_t n) { memset(to, byte, n); }

int memcmp(const void *a, const void *b, size_t n) {
    orders_reads(a, n);
    orders_reads(b, n);
    const unsigned char *p = a, *q = b;
    for (; n; n--, p++, q++)
        if (*p != *q)
            return *p - *q;
    return 0;
}

size_t strlen(const char *s) {
    size_t n = 0;
    while (s[n])
        n++;
    orders_reads(s, n + 1);
    return n;
}

int strncmp(const char *a, const char *b, size_t n) {
    for (; n; n--, a++, b++) {
        orders_reads(a, 1);
        orders_reads(b, 1);
        if (*a != *b || !*a)
            return (unsigned char)*a - (unsigned char)*b;
    }
    return 0;
}

int strcmp(const char *a, const char *b) { return strncmp(a, b, SIZE_MAX); }
int strcoll(const char *a, const char *b) { return strcmp(a, b); }

int strncasecmp(const char *a, const char *b, size_t n) {
    for (; n; n--, a++, b++) {
        orders_reads(a, 1);
        orders_reads(b, 1);
        int order = tolower((unsigned char)*a) - tolower((unsigned char)*b);
        if (order || !*a)
            return order;
    }
    return 0;
}

int strcasecmp(const char *a, const char *b) { return strncasecmp(a, b, SIZE_MAX); }

void *memchr(const void *from, int byte, size_t n) {
    for (const unsigned char *p = from; n; n--, p++) {
        orders_reads(p, 1);
        if (*p == (unsigned char)byte)
            return (void *)p;
    }
    return 0;
}

size_t strnlen(const char *s, size_t n) {
    const char *end = memchr(s, 0, n);
    return end ? (size_t)(end - s) : n;
}

/* Up to the first `byte`, and that too: then what stands behind it, and else null. */
void *memccpy(void *restrict to, const void *restrict from, int byte, size_t n) {
    const char *end = memchr(from, byte, n);
    size_t length = end ? end + 1 - (const char *)from : n;
    orders_writes(to, length);
    memmove(to, from, length);
    return end ? (char *)to + length : 0;
}

char *stpcpy(char *restrict to, const char *restrict from) {
    size_t n = strlen(from);
    orders_writes(to, n + 1);
    memmove(to, from, n + 1);
    return to + n;
}

char *strcpy(char *restrict to, const char *restrict from) { stpcpy(to, from); return to; }

/* The rest is filled with zeros. */
char *strncpy(char *restrict to, const char *restrict from, size_t n) {
    size_t length = strnlen(from, n);
    orders_writes(to, n);
    memmove(to, from, length);
    memset(to + length, 0, n - length);
    return to;
}

char *strcat(char *restrict to, const char *restrict from) { strcpy(to + strlen(to), from); return to; }

char *strncat(char *restrict to, const char *restrict from, size_t n) {
    size_t length = strnlen(from, n);
    char *end = to + strlen(to);
    orders_writes(end, length + 1);
    memmove(end, from, length);
    end[length] = 0;
    return to;
}

size_t strxfrm(char *restrict to, const char *restrict from, size_t n) {
    size_t length = strlen(from);
    if (length < n)
        strcpy(to, from);
    return length;
}

char *strchr(const char *s, int c) {
    const char *end = s;
    while (*end && *end != (char)c)
        end++;
    orders_reads(s, end - s + 1);
    return *end == (char)c ? (char *)end : 0;
}

char *strrchr(const char *s, int c) {
    for (const char *p = s + strlen(s);; p--)
        if (*p == (char)c)
            return (char *)p;
        else if (p == s)
            return 0;
}

char *strstr(const char *s, const char *part) {
    size_t n = strlen(part);
    for (; strncmp(s, part, n); s++)
        if (!*s)
            return 0;
    return (char *)s;
}

/* How many bytes at the front are among those of `set`, or aren't. */
static size_t span(const char *s, const char *set, int among) {
    size_t n = 0;
    while (s[n] && !strchr(set, s[n]) == !among)
        n++;
    orders_reads(s, n + 1);
    return n;
}

size_t strspn(const char *s, const char *set) { return span(s, set, 1); }
size_t strcspn(const char *s, const char *set) { return span(s, set, 0); }

char *strpbrk(const char *s, const char *set) {
    s += span(s, set, 0);
    return *s ? (char *)s : 0;
}

char *strtok_r(char *restrict s, const char *restrict set, char **restrict rest) {
    s = s ? s : *rest;
    s += strspn(s, set);
    char *end = s + strcspn(s, set);
    *rest = *end ? end + 1 : end;
    orders_writes(end, 1);
    *end = 0;
    return end == s ? 0 : s;
}

char *strdup(const char *s) {
    size_t n = strlen(s) + 1;
    char *made = malloc(n);
    if (!made)
        return 0;
    orders_writes(made, n);
    return memmove(made, s, n);
}

char *strndup(const char *s, size_t n) {
    size_t length = strnlen(s, n);
    char *made = malloc(length + 1);
    if (!made)
        return 0;
    orders_writes(made, length + 1);
    made[length] = 0;
    return memmove(made, s, length);
}

int ffs(int x) { return __builtin_ffs(x); }
int ffsl(long x) { return __builtin_ffsl(x); }
int ffsll(long long x) { return __builtin_ffsll(x); }
int bcmp(const void *a, const void *b, size_t n) { return memcmp(a, b, n); }

void bcopy(const void *from, void *to, size_t n) {
    orders_reads(from, n);
    orders_writes(to, n);
    memmove(to, from, n);
}

void bzero(void *to, size_t n) {
    orders_writes(to, n);
    memset(to, 0, n);
}

char *index(const char *s, int c) { return strchr(s, c); }
char *rindex(const char *s, int c) { return strrchr(s, c); }

static const struct { int number; const char *text; } errors[] = {
    {0, "Success"}, {EPERM, "Operation not permitted"}, {ENOENT, "No such file or directory"},
    {ESRCH, "No such process"}, {EINTR, "Interrupted system call"}, {EIO, "Input/output error"},
    {EBADF, "Bad file descriptor"}, {EAGAIN, "Resource temporarily unavailable"}, {ENOMEM, "Cannot allocate memory"},
    {EACCES, "Permission denied"}, {EFAULT, "Bad address"}, {EBUSY, "Device or resource busy"},
    {EEXIST, "File exists"}, {EINVAL, "Invalid argument"}, {ENOSPC, "No space left on device"},
    {EPIPE, "Broken pipe"}, {EDOM, "Numerical argument out of domain"}, {ERANGE, "Numerical result out of range"},
    {EDEADLK, "Resource deadlock avoided"}, {ENOSYS, "Function not implemented"},
    {EOVERFLOW, "Value too large for defined data type"}, {ENOTSUP, "Operation not supported"},
    {ETIMEDOUT, "Connection timed out"}, {ECANCELED, "Operation canceled"}, {EOWNERDEAD, "Owner died"},
    {ENOTRECOVERABLE, "State not recoverable"},
};

/* As Linux has it; what isn't among these is unknown. */
char *strerror(int number) {
    for (size_t i = 0; i < sizeof errors / sizeof *errors; i++)
        if (errors[i].number == number)
            return (char *)errors[i].text;
    return "Unknown error";
}

int strerror_r(int number, char *to, size_t n) {
    const char *text = strerror(number);
    if (strlen(text) >= n)
        return ERANGE;
    strcpy(to, text);
    return 0;
}
