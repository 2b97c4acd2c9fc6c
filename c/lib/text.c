/* Text: what a thread prints stays with it, in a word that nobody else touches, so that it makes no order. Eight letters are
   one store to it, and behind a line it is 0 again: a trace has all that was printed, and no state has it. A store of 0
   would end a line, so a call that leaves one open leaves its last letter there, alone. */

volatile _Thread_local uint64_t wathread_text;

/* Where text goes: to a string with room, or where that is null, to what the thread prints. All that follows is written into
   those who print, so that it lies in no memory: else each letter is many entries, and one who prints so slow that drawn
   runs don't meet what comes behind. A letter is read once. */
struct out {
    char *to;
    size_t room, count;
    uint64_t word;
    unsigned char last; /* which isn't in the word yet */
};

#define INSIDE static inline __attribute__((always_inline))

INSIDE void put(struct out *out, unsigned char c) {
    if (out->to) {
        if (out->count < out->room)
            out->to[out->count] = c;
    } else {
        out->word |= (uint64_t)out->last << (out->count - 1) % 8 * 8; /* 0 at first */
        if (out->count && out->count % 8 == 0) {
            wathread_text = out->word;
            out->word = 0;
        }
        out->last = c;
    }
    out->count++;
}

/* Behind what is printed. Answers how many letters there were. */
INSIDE int printed(struct out *out) {
    uint64_t last = out->last;
    if (last == '\n') {
        wathread_text = out->word | last << (out->count - 1) % 8 * 8;
        wathread_text = 0;
    } else if (out->count) {
        if (out->word)
            wathread_text = out->word;
        wathread_text = last;
    }
    return out->count;
}

INSIDE void put_many(struct out *out, char c, int n) {
    for (; n > 0; n--)
        put(out, c);
}

/* A `%`, its flags, its width and its precision, which is below 0 where there is none. */
struct piece {
    char left, plus, space, other, zero, sign, type, length;
    int width, precision;
};

INSIDE void put_number(struct out *out, struct piece *p, unsigned long long value) {
    unsigned base = p->type == 'o' ? 8 : p->type == 'x' || p->type == 'X' ? 16 : 10;
    unsigned long long scale = 1;
    int n = 0, least = p->precision < 0 ? 1 : p->precision;
    for (unsigned long long rest = value; rest; rest /= base)
        scale *= n++ ? base : 1;
    if (p->other && base == 8 && least <= n)
        least = n + 1;
    int before = p->sign ? 1 : p->other && base == 16 && value ? 2 : 0, zeros = least > n ? least - n : 0;
    int room = p->width - n - zeros - before, fills = p->zero && !p->left && p->precision < 0;
    if (!fills && !p->left)
        put_many(out, ' ', room);
    if (before)
        put(out, before == 1 ? p->sign : '0');
    if (before == 2)
        put(out, p->type);
    put_many(out, '0', zeros + (fills && room > 0 ? room : 0));
    for (; n; n--, scale /= base) {
        unsigned digit = value / scale % base;
        put(out, digit < 10 ? '0' + digit : p->type - 'x' + 'a' + digit - 10);
    }
    if (p->left)
        put_many(out, ' ', room);
}

/* The next argument as a number, by its length: each is a type of its own. */
INSIDE long long next_number(va_list *list, char length, int is_signed) {
    if (length == 'L')
        return va_arg(*list, long long);
    int value = va_arg(*list, int);
    switch (length) {
    case 'H':
        return is_signed ? (signed char)value : (unsigned char)value;
    case 'h':
        return is_signed ? (short)value : (unsigned short)value;
    }
    return is_signed ? value : (long long)(unsigned)value;
}

/* A string, or where that is null, one letter. */
INSIDE void put_string(struct out *out, struct piece *p, const char *text, char c) {
    size_t n = 0, most = p->precision < 0 ? SIZE_MAX : p->precision;
    if (!text)
        n = most = 1;
    else if (p->width)
        while (n < most && text[n])
            n++;
    int room = p->width - n;
    if (!p->left)
        put_many(out, ' ', room);
    size_t i = 0;
    for (char letter = c; i < most && (!text || (letter = text[i])); i++)
        put(out, letter);
    if (p->left)
        put_many(out, ' ', room);
    if (text)
        orders_reads(text, i < most ? i + 1 : i);
}

static __attribute__((noinline)) _Noreturn void printf_has_no_floats(void) { __builtin_trap(); }
static __attribute__((noinline)) _Noreturn void printf_has_no_such_type(void) { __builtin_trap(); }

INSIDE void put_argument(struct out *out, struct piece *p, va_list *list) {
    unsigned long long value = 0;
    const char *text = 0;
    char c = 0;
    switch (p->type) {
    case 'd':
    case 'i':
        value = next_number(list, p->length, 1);
        p->sign = (long long)value < 0 ? '-' : p->plus ? '+' : p->space ? ' ' : 0;
        value = p->sign == '-' ? -value : value;
        break;
    case 'p':
        value = va_arg(*list, unsigned);
        text = value ? 0 : "(nil)";
        p->type = value ? 'x' : 's', p->other = 1;
        break;
    case 'u':
    case 'o':
    case 'x':
    case 'X':
        value = next_number(list, p->length, 0);
        break;
    case 'c':
        c = va_arg(*list, int), p->precision = -1;
        break;
    case 's':
        text = va_arg(*list, const char *);
        text = text ? text : "(null)";
        break;
    case '%':
        put(out, '%');
        return;
    default:
        if ((p->type | 32) == 'a' || ((p->type | 32) >= 'e' && (p->type | 32) <= 'g'))
            printf_has_no_floats();
        printf_has_no_such_type(); /* %n, and all others */
    }
    if (p->type == 's' || p->type == 'c')
        put_string(out, p, text, c);
    else
        put_number(out, p, value);
}

INSIDE int read_count(const char **format, char *c, va_list *list) {
    int n = 0;
    if (*c == '*') {
        *c = *++*format;
        return va_arg(*list, int);
    }
    for (; *c >= '0' && *c <= '9'; *c = *++*format)
        n = 10 * n + *c - '0';
    return n;
}

/* Reads what stands behind a `%`, up to the type, where it leaves the format. */
INSIDE struct piece read_piece(const char **format, va_list *list) {
    struct piece p = {.precision = -1};
    char c = **format;
    for (;; c = *++*format)
        if (c == '-')
            p.left = 1;
        else if (c == '+')
            p.plus = 1;
        else if (c == ' ')
            p.space = 1;
        else if (c == '#')
            p.other = 1;
        else if (c == '0')
            p.zero = 1;
        else
            break;
    p.width = read_count(format, &c, list);
    if (p.width < 0)
        p.left = 1, p.width = -p.width;
    if (c == '.') {
        c = *++*format;
        p.precision = read_count(format, &c, list);
    }
    for (;; c = *++*format)
        if (c == 'h')
            p.length = p.length ? 'H' : 'h';
        else if (c == 'l')
            p.length = p.length ? 'L' : 'l';
        else if (c == 'j')
            p.length = 'L';
        else if (c != 'z' && c != 't')
            break;
    p.type = c;
    return p;
}

INSIDE int format(struct out *out, const char *format, va_list list) {
    const char *first = format;
    for (char c; (c = *format); format++)
        if (c == '%') {
            format++;
            struct piece p = read_piece(&format, &list);
            put_argument(out, &p, &list);
        } else {
            put(out, c);
        }
    orders_reads(first, format + 1 - first);
    return out->count;
}

int vsnprintf(char *restrict to, size_t n, const char *restrict text, va_list list) {
    char none;
    struct out out = {n ? to : &none, n ? n - 1 : 0, 0};
    int count = format(&out, text, list);
    orders_writes(to, n ? (out.count < n ? out.count + 1 : n) : 0);
    if (n)
        to[out.count < n ? out.count : n - 1] = 0;
    return count;
}

int vsprintf(char *restrict to, const char *restrict text, va_list list) { return vsnprintf(to, INT32_MAX, text, list); }

int vprintf(const char *restrict text, va_list list) {
    struct out out = {0};
    format(&out, text, list);
    return printed(&out);
}

int vfprintf(FILE *restrict file, const char *restrict text, va_list list) { (void)file; return vprintf(text, list); }

#define WITH_LIST(call)      \
    va_list list;            \
    va_start(list, text);    \
    int count = call;        \
    va_end(list);            \
    return count;

int snprintf(char *restrict to, size_t n, const char *restrict text, ...) { WITH_LIST(vsnprintf(to, n, text, list)) }
int sprintf(char *restrict to, const char *restrict text, ...) { WITH_LIST(vsprintf(to, text, list)) }
int printf(const char *restrict text, ...) { WITH_LIST(vprintf(text, list)) }
int fprintf(FILE *restrict file, const char *restrict text, ...) { (void)file; WITH_LIST(vprintf(text, list)) }
int dprintf(int file, const char *restrict text, ...) { (void)file; WITH_LIST(vprintf(text, list)) }

/* Prints so many letters, or a string where they aren't counted, and behind it the end of a line where that is asked for. */
enum { STRING = -1 };
static void print(const char *from, size_t n, int line) {
    struct out out = {0};
    size_t i = 0;
    for (char c; i < n && ((c = from[i]) || n != (size_t)STRING); i++)
        put(&out, c);
    orders_reads(from, n == (size_t)STRING ? i + 1 : i);
    if (line)
        put(&out, '\n');
    printed(&out);
}

size_t fwrite(const void *restrict from, size_t size, size_t count, FILE *restrict file) {
    (void)file;
    print(from, size * count, 0);
    return count;
}

ssize_t write(int file, const void *from, size_t n) { (void)file; return fwrite(from, 1, n, stdout); }
int fputs(const char *restrict text, FILE *restrict file) { (void)file; print(text, STRING, 0); return 0; }

int fputc(int c, FILE *file) {
    struct out out = {0};
    (void)file;
    put(&out, c);
    printed(&out);
    return (unsigned char)c;
}

int putc(int c, FILE *file) { return fputc(c, file); }
int putchar(int c) { return fputc(c, stdout); }
int puts(const char *text) { print(text, STRING, 1); return 0; }

void __wathread_says(const char *text) { /* a failed assert, on a line of its own */
    wathread_text = 0;
    print(text, STRING, 1);
}

#ifndef ORDERS
void __wathread_views(void) {}
#endif

int fflush(FILE *file) { (void)file; return 0; }
int setvbuf(FILE *restrict file, char *restrict to, int kind, size_t n) { (void)file, (void)to, (void)kind, (void)n; return 0; }
void setbuf(FILE *restrict file, char *restrict to) { (void)file, (void)to; }

static pthread_mutex_t file_lock = PTHREAD_RECURSIVE_MUTEX_INITIALIZER_NP;

void flockfile(FILE *file) { (void)file; pthread_mutex_lock(&file_lock); }
int ftrylockfile(FILE *file) { (void)file; return pthread_mutex_trylock(&file_lock); }
void funlockfile(FILE *file) { (void)file; pthread_mutex_unlock(&file_lock); }

void perror(const char *text) {
    const char *why = strerror(errno);
    if (text && *text)
        printf("%s: %s\n", text, why);
    else
        puts(why);
}
