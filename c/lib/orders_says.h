/* What the runtime says of the orders: lines of the thread's own text (text.c), so that they are no memory that others see,
   and make neither an order nor a state. A line is put together in numbers that are no memory, and read and written by
   eight letters at a time: it's some twenty entries. */

extern volatile _Thread_local u64 wathread_text;
int thread_self(void);

/* Letters, the first one in the lowest byte, with zeros behind the last. */
static __attribute__((noinline)) void put_letters(u64 letters, u32 many) {
    u32 had = own_lettered();
    u64 word = own_letters() | letters << 8 * had;
    if (had + many < 8) {
        set_letters(word);
        set_lettered(had + many);
        return;
    }
    wathread_text = word;
    set_letters(had ? letters >> (64 - 8 * had) : 0);
    set_lettered(had + many - 8);
}

/* What is written here is made into numbers by the compiler, so that it isn't read. */
#define SAY(text) say_constant(text, sizeof text - 1)
INLINE void say_constant(const char *text, u32 many) {
#pragma clang loop unroll(full)
    for (u32 i = 0; i < many; i += 8) {
        u64 letters = 0;
#pragma clang loop unroll(full)
        for (u32 k = 0; k < 8; k++)
            letters |= i + k < many ? (u64)(u8)text[i + k] << 8 * k : 0;
        put_letters(letters, many - i < 8 ? many - i : 8);
    }
}

/* What the program's own line has come to is a line. */
static void begin_line(void) { wathread_text = 0; }

static void end_line(void) {
    put_letters('\n', 1);
    if (own_lettered())
        wathread_text = own_letters();
    wathread_text = 0;
    set_letters(0);
    set_lettered(0);
}

static __attribute__((noinline)) void say_number(u64 value) {
    u64 scale = 1;
    while (value / scale >= 10)
        scale *= 10;
    for (; scale; scale /= 10)
        put_letters('0' + value / scale % 10, 1);
}

static void say_value(u64 value, int log) {
    int unused = 64 - (8 << log);
    int64_t number = (int64_t)(value << unused) >> unused;
    if (number < 0)
        put_letters('-', 1);
    say_number(number < 0 ? -(u64)number : (u64)number);
}

static void say_thread(u32 thread) {
    put_letters('t', 1);
    say_number(thread);
}

/* ---- Sites: two texts, each up to the first word whose last byte is zero (sites.py) ---- */

INLINE u32 length_of(u64 letters) { return letters ? 8 - __builtin_clzll(letters) / 8 : 0; }

static __attribute__((noinline)) u32 say_piece(u32 at) {
    u64 letters;
    do {
        letters = *(const u64 *)at;
        put_letters(letters, length_of(letters));
        at += 8;
    } while (letters >> 56);
    return at;
}

/* The name of what is at an address, where the site has one. */
static __attribute__((noinline)) void say_name(u32 site, u32 at) {
    if (site) {
        while (*(const u64 *)site >> 56)
            site += 8;
        site += 8;
    }
    if (site && *(const u64 *)site)
        say_piece(site);
    else {
        SAY("address ");
        say_number(at);
    }
}

/* Where the thread is. */
static void say_here(void) {
    if (own_site()) {
        say_piece(own_site());
        put_letters(' ', 1);
    }
}

/* ---- Who wrote something: its site, and the thread's number plus 1 above it; 0 where nobody has to know ---- */

enum { SITE_BITS = 24 };
#define SITE(by) ((by) & ((1u << SITE_BITS) - 1))
#define THREAD(by) (((by) >> SITE_BITS & 127) - 1)
#define UNRELEASED (1u << 31) /* what the thread had done before isn't known to who reads it */
#define WHO_READ (1u << 31)   /* of a race: a thread that read it, or -1 */
#define FENCED (1u << 31)     /* beside the site of a fence, which may be 0 */
INLINE u32 by_me(void) { return own_site() | (u32)(thread_self() + 1) << SITE_BITS; }

static void say_where(u32 by) {
    if (SITE(by)) {
        SAY(" at ");
        say_piece(SITE(by));
    }
}

enum does { READS, WRITES, CHANGES_IT, FREES };

static void say_does(enum does does) {
    if (does == READS)
        SAY("reads ");
    else if (does == WRITES)
        SAY("writes ");
    else if (does == FREES)
        SAY("frees ");
    else
        SAY("changes ");
}

/* Who reads and what, at the beginning of a line. */
static void say_reads(u32 at, int log, u64 value) {
    begin_line();
    say_here();
    SAY("reads ");
    say_name(own_site(), at);
    SAY(" = ");
    say_value(value, log);
}

static __attribute__((noinline)) void say_old(u32 at, int log, u64 value, u64 newest, u32 by) {
    say_reads(at, log, value);
    SAY(", which is old: ");
    say_thread(THREAD(by));
    SAY(" wrote ");
    say_value(newest, log);
    say_where(by);
    SAY(", and nothing orders that before this");
    end_line();
}

/* A message that is news, where what its writer did before isn't known with it, or where that has made a release fence, what
   it did since. */
static __attribute__((noinline)) void say_news(u32 at, int log, u64 value, u32 by, u32 fence, int acquired, int fenced) {
    say_reads(at, log, value);
    if (!acquired)
        SAY(" without acquire");
    SAY(", which ");
    say_thread(THREAD(by));
    SAY(" wrote");
    say_where(by);
    if (by & UNRELEASED || fence)
        SAY(" without release");
    SAY(": ");
    if (!fence || !acquired) {
        SAY("what ");
        say_thread(THREAD(by));
        if (fenced && !acquired && !(by & UNRELEASED))
            SAY(" did before is known only behind an acquire fence");
        else
            SAY(" did before isn't known with it");
        if (fence)
            SAY(", and ");
    }
    if (fence) {
        SAY("nothing orders what ");
        say_thread(THREAD(by));
        SAY(" did since its release fence");
        say_where(fence);
        SAY(" before that store");
    }
    end_line();
}

static __attribute__((noinline)) void say_race(u32 at, enum does does, u32 by) {
    begin_line();
    SAY("data race: ");
    say_here();
    say_does(does);
    say_name(own_site() ? own_site() : SITE(by), at);
    SAY(", which ");
    if (by && by != WHO_READ)
        say_thread(THREAD(by));
    else
        SAY("another thread");
    if (by & WHO_READ)
        SAY(" reads or read");
    else
        SAY(" wrote");
    say_where(by);
    SAY(", and nothing orders that before this");
    end_line();
}

static __attribute__((noinline)) void say_freed(u32 at, u32 by) {
    begin_line();
    SAY("use after free: ");
    say_here();
    SAY("touches ");
    say_name(own_site(), at);
    SAY(", in a block that ");
    say_thread(THREAD(by));
    SAY(" freed");
    say_where(by);
    end_line();
}

static __attribute__((noinline)) void say_mixed(u32 at) {
    begin_line();
    SAY("mixed sizes: ");
    say_here();
    SAY("touches ");
    say_name(own_site(), at);
    SAY(" by an atomic access of another size than before, or not aligned: C has none");
    end_line();
}

/* ---- What ends a run, by these: the name is what a trace says ---- */

#define TRAPS __attribute__((noinline, noreturn)) static void
#define FAILS { fails_inside(); __builtin_trap(); }
/* The load is a row that has the name of the data. */
TRAPS data_race(u32 at, enum does does, u32 by) { (void)*(volatile u8 *)at; say_race(at, does, by); FAILS }
TRAPS use_after_free(u32 at, u32 by) { say_freed(at, by); FAILS }
TRAPS atomics_of_mixed_sizes(u32 at) { say_mixed(at); FAILS }
TRAPS orders_full_of_places__use_a_greater_pool(void) FAILS
TRAPS orders_full_of_messages__use_a_greater_pool(void) FAILS
TRAPS orders_full_of_places__no_pool_has_more(void) FAILS
TRAPS orders_full_of_messages__no_pool_has_more(void) FAILS
