/* Who may work on the tables, what is chosen, and how a run ends. */

typedef uint64_t u64;
typedef uint32_t u32;
typedef uint16_t u16;
typedef uint8_t u8;
#define INLINE __attribute__((always_inline)) static inline

/* ---- Limits: tables are as large as malloc's pool, and as there may be threads. wathread-cc says both ---- */

#ifndef ORDERS_POOL
#define ORDERS_POOL 16384     /* --pool: bytes that malloc has */
#endif
#ifndef ORDERS_STARTS
#define ORDERS_STARTS 15      /* --threads: how many may be started */
#endif
#ifndef ORDERS_PATIENCE
#define ORDERS_PATIENCE 1     /* how often a thread is told what is old where it has asked before; 0: any number */
#endif
#ifndef ORDERS_C11_SEQUENCES
#define ORDERS_C11_SEQUENCES 0 /* 1: a release sequence has later stores of the same thread too, as before C++20 */
#endif
#ifndef ORDERS_NEWS
#define ORDERS_NEWS 1         /* 0: nothing is said of what is read without release or acquire */
#endif
#define FROM_TO(least, most, n) ((n) < (least) ? (least) : (n) > (most) ? (most) : (n))

enum {
    THREADS = ORDERS_STARTS + 1,              /* that aren't joined yet, with main */
    MOST_PLACES = ORDERS_C11_SEQUENCES ? 128 : 512,
    PLACES = FROM_TO(64, MOST_PLACES, ORDERS_POOL / 256 / 4 * 4), /* that threads share at a time */
    NEAR = 4,                                 /* messages of a place that lie beside it */
    PAGE = 8,                                 /* and so many lie together behind these */
    MOST_PAGES = 256,
    PAGES = FROM_TO(16, MOST_PAGES, ORDERS_POOL / 1024), /* of all places together */
    FREED = ORDERS_POOL / 32 + 1,             /* blocks that were freed: a block in between, with its front, has as many bytes */
    NUMBERS = 64,
    FRONT = 16                                /* in front of each block of malloc's */
};

/* Numbers that each thread has for itself, and no memory (start.s): what a thread touches in front of an event is a part
   of a state, so an operation that comes first or tries again would be two of them. And an access of memory is an entry of
   a record. */
#define OWN(name, type, wasm)                                                                                          \
    __asm__(".globaltype number_" #name ", " #wasm);                                                                   \
    INLINE type own_##name(void) {                                                                                     \
        type x;                                                                                                        \
        __asm__ volatile("global.get number_" #name "\n\tlocal.set %0" : "=r"(x));                                     \
        return x;                                                                                                      \
    }                                                                                                                  \
    INLINE void set_##name(type x) { __asm__ volatile("local.get %0\n\tglobal.set number_" #name : : "r"(x)); }
OWN(slot, int, i32)     /* its number here */
OWN(parallel, int, i32) /* 0 while `main` is alone: then nothing has to be simulated */
OWN(stays, int, i32)    /* it started a thread, and stays inside until its next operation, of which it may be a part */
OWN(tolds, u32, i32)    /* how much it was told */
OWN(often, u32, i32)    /* what it may have done twice */
OWN(failed, int, i32)   /* its last weak compare-exchange, until that is asked for */
OWN(noted, int, i32)    /* how many plain accesses it has noted */
OWN(counted, int, i32)  /* whether it has counted what it read */
OWN(fence, u32, i32)    /* where its last release fence is, and FENCED (orders.c); 0 where it has made none */
OWN(done, u64, i64)     /* what it may have done to a place before */
OWN(site, u32, i32)     /* where in the source it is (sites.py), while it is in the runtime, or 0 */
OWN(letters, u64, i64)  /* of a line that it says, what isn't in its text yet (orders_says.h) */
OWN(lettered, u32, i32) /* how many letters these are */
#define TOLD(i)                                                                                                        \
    OWN(what##i, u64, i64) /* what it was told */                                                                      \
    OWN(value##i, u64, i64)
TOLD(0) TOLD(1) TOLD(2) TOLD(3)
enum { MOST_TOLD = 4 }; /* how much at most */
/* Of who is inside, and 0 outside: */
OWN(head, u32, i32)     /* how many places there are, and what is used (orders_tables.h) */
OWN(marks, u32, i32)    /* what was done: */
OWN(inside, u64, i64)   /* what the gate was as it came in, without HELD */
enum { NEWS = 1 /* there is a message or a place that wasn't */, NOTING = 2 /* it will be told the same again */,
       STILL = 4 /* it knows of no message that it didn't know */ };
INLINE void mark(u32 what) { set_marks(own_marks() | what); }

/* Numbers of the runtime are used again after a join: by starts, and by the numbers that traces have. */
static u8 slots_of_starts[NUMBERS], slots[NUMBERS];
INLINE int me(void) { return own_slot(); }
INLINE int is_parallel(void) { return own_parallel(); }

static int simulates; /* the same for who is told of it: it was waiting as threads became one */

/* Bits by slots: threads that run, and of these who sleeps; who has ended, and isn't joined; who waits for a thread's end,
   and will know what that knows. Who has a view is both who runs and who has ended; and who may still read is each that
   runs and doesn't wait so. */
static u64 running, sleeping, ended, joining; /* ended: and not joined */
static u64 having, looking;
#define BIT(t) (1ull << (t))
static void looks_again(void) {
    having = running | ended;
    looking = running & ~joining;
}
static void set_joining(u64 who) {
    joining = who;
    looking = running & ~who;
}
static void set_ended(u64 who) {
    ended = who;
    having = running | who;
}

/* ---- The gate: one thread at a time ----

   An operation goes in where the gate isn't HELD, by one event, and gives it back by another. Who comes while somebody is
   inside tries again, which is no new state. So that nobody tries for ever in vain, who is inside by something that it
   did twice before, as in a loop, leaves the gate OPEN to be asked for: it's then given to those who asked, in turn.

   The gate also has a bit for each thread that is told the same again where it asks the same again (orders.c): as long as
   nobody writes a message. So a loop that waits for one is a loop of one event, by which nobody is kept out. */

enum { IN_TURN = THREADS < 28 ? THREADS : 28 }; /* there are bits for so many: the others aren't asked */
#define HELD 1ull
#define OPEN 2ull
#define TURN(t) (4ull * ((t) + 1)) /* whose turn it is: t plus 1, in five bits */
#define TURN_MASK TURN(30)
#define ASKS(t) (0x80ull << (t))
#define ALL_ASKS (((1ull << IN_TURN) - 1) << 7)
#define SAME(t) (0x80ull << (IN_TURN + (t)))
#define ALL_SAME (((1ull << IN_TURN) - 1) << (7 + IN_TURN))
static _Atomic u64 gate;

INLINE int has_turns(int t) { return THREADS <= IN_TURN || t < IN_TURN; }
INLINE u64 same_bit(int t) { return has_turns(t) ? SAME(t) : 0; }

static u32 head_inside(void); /* orders_tables.h */

/* A function of its own, so that nothing of a try in vain is left in the frame: it would make more states. */
static __attribute__((noinline)) int waits_for_its_turn(int t, u64 mine) {
    u64 was = atomic_fetch_or(&gate, mine);
    if (!(was & HELD) || (has_turns(t) && (was & TURN_MASK) == TURN(t))) {
        set_inside((was | mine) & ~HELD);
        return 1;
    }
    if (has_turns(t) && (was | mine) & OPEN && !(was & ASKS(t)))
        atomic_fetch_or(&gate, ASKS(t));
    return 0;
}

static void enter(int t, int again) {
    while (!waits_for_its_turn(t, again ? HELD | OPEN : HELD))
        ;
    set_head(head_inside());
}

/* What the gate is once T has left: the turn of the next one who asked. */
static u64 turn_behind(int t, u64 was, u64 same) {
    u64 asked = was & ALL_ASKS;
    if (has_turns(t))
        asked &= ~ASKS(t);
    if (!asked)
        return same;
    do
        t = t + 1 < IN_TURN ? t + 1 : 0;
    while (!(asked & ASKS(t)));
    return HELD | OPEN | TURN(t) | (asked & ~ASKS(t)) | same;
}

/* Who will be told the same again. What was done is in no frame then: it would make more states. */
static __attribute__((noinline)) u64 same_behind(int t) {
    u32 marks = own_marks();
    u64 same = marks & NEWS ? 0 : own_inside() & ALL_SAME & ~same_bit(t);
    set_marks(0);
    return marks & NOTING ? same | same_bit(t) : same;
}

static void leave(int t) {
    u64 same = same_behind(t), was = own_inside();
    set_head(0);
    set_inside(0);
    if (was & (OPEN | ALL_ASKS))
        for (was |= HELD; !atomic_compare_exchange_strong(&gate, &was, turn_behind(t, was, same));)
            ;
    else
        gate = same;
}

/* The same for who may have stayed inside since it started a thread. Where it comes to the same whether the new thread goes
   first or not, both are one operation. */
static void enter_behind_start(int t, int again, int commutes) {
    int stays = own_stays();
    if (stays)
        set_stays(0);
    if (stays && commutes)
        return;
    if (stays)
        leave(t);
    enter(t, again);
}

/* ---- The helper: a thread that makes choices come either way ----

   It sets a bit where somebody asks, sooner or later than the asker looks. It's always the thread with the last number:
   it becomes the next thread that the program starts, and a new one is started where the next choice is. */

enum { IDLE, ASKED, YES, RESTS, OVER, BECOMES };
static _Atomic u32 dice[NUMBERS];  /* by the helper's number */
static int helper;                 /* its number, or 0 */
static int rests;                  /* it sleeps, or is about to */
static int over;                   /* a thread has failed: no more choices */

__attribute__((import_module("wasi"), import_name("thread-spawn"))) int __wathread_spawn(int place);
int __wathread_most(void);
int __wathread_later(void);
#define spawn_at(place) __wathread_spawn((place) + __wathread_later())

/* As with the gate, nothing of it is left in the frame. */
static __attribute__((noinline)) int makes_choices(int thread) {
    u32 was = ASKED;
    atomic_compare_exchange_strong(&dice[thread], &was, YES);
    if (was == RESTS)
        __builtin_wasm_memory_atomic_wait32((int *)&dice[thread], RESTS, -1);
    return was < OVER;
}

int orders_begins(int thread, int place) {
    if (!place) {
        while (makes_choices(thread))
            ;
        place = (int)dice[thread] - BECOMES;
    }
    if (place >= 0) {
        set_slot(slots_of_starts[place]);
        set_parallel(1);
    }
    return place;
}

static void tell_helper(u32 what) {
    if (!helper)
        return;
    dice[helper] = what;
    if (rests && what != RESTS)
        __builtin_wasm_memory_atomic_notify((int *)&dice[helper], 1);
    rests = what == RESTS;
}

/* A bit that may come either way. */
static int draw(void) {
    if (!helper)
        helper = spawn_at(0);
    tell_helper(ASKED);
    return atomic_exchange(&dice[helper], IDLE) == YES;
}

/* One of so many, 0 the most usual. */
static int choose(int many) {
    int i = 0;
    if (!over)
        while (i < many - 1 && draw())
            i++;
    return i;
}

/* ---- Sleep: the helper rests where all sleep, so that a deadlock is one ---- */

/* Where threads sleep, by slots: the address of the word for which each waits, or ALL_ENDS. Where joins sleep, by the numbers
   of threads: 1 while somebody waits for the thread's end. Both have names, since it's told where a thread stands, and rows
   have the second one (wathread-link). */
#pragma clang attribute pop
static u32 waits_for[THREADS], thread_end[NUMBERS];
#pragma clang attribute push(__attribute__((nodebug)), apply_to = any(hasType(functionType), variable(unless(is_parameter))))
enum { ALL_ENDS = 1 }; /* main has left, and waits for all others */

static void falls_asleep(int t, u32 *where, u32 what) {
    *where = what;
    sleeping |= BIT(t);
    if (sleeping == running)
        tell_helper(RESTS);
}

/* Behind leave(). Who wakes it is inside, so a notify never comes late. */
static int sleeps(u32 *where, u32 what, long long nanoseconds) {
    return __builtin_wasm_memory_atomic_wait32((int *)where, what, nanoseconds);
}

static void wakes(u32 *where) {
    __atomic_store_n(where, 0, __ATOMIC_SEQ_CST);
    __builtin_wasm_memory_atomic_notify((int *)where, 1);
}

/* ---- How a run ends ---- */

static void is_gone(int t) {
    running &= ~BIT(t);
    looks_again();
    if (!running || over)
        tell_helper(OVER);
    else if (sleeping == running)
        tell_helper(RESTS);
}

static void fails_inside(void) {
    over = 1;
    is_gone(me());
    helper = 0;
    leave(me());
}
