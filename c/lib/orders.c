/* C11's memory orders, simulated by the words of the program: docs/ORDERS.md says which rules.

   The compiler makes a call of each access (-fsanitize=thread), and these are the functions that it calls. Each atomic
   place has messages in modification order; a view says of each place how old a message may still be read, and what
   happens before; each thread has a view, and each message carries one. The memory itself has the newest value of each
   place, so that plain accesses, waits and `show` find it there. An operation is one step: between its gate's two events
   it makes plain accesses alone, which cost a search no states. */
#include <stdatomic.h>
#include <stdint.h>
#include <stddef.h>
#include <string.h>
#include <wathread.h>
#define ORDERS
#include "orders.h"

/* Nothing here is in the debug information but what the compiler's text calls and what is there for rows: so a trace and a
   stack have the program's words, and none of these. */
#pragma clang attribute push(__attribute__((nodebug)), apply_to = any(hasType(functionType), variable(unless(is_parameter))))
#include "orders_gate.h"
#include "orders_says.h"
#include "orders_tables.h"
#include "orders_plain.h"

enum { RELAXED, CONSUME, ACQUIRE, RELEASE, ACQ_REL, SEQ_CST }; /* the compiler's numbers */
INLINE int acquires(int order) { return order != RELAXED && order != RELEASE; }
INLINE int releases(int order) { return order >= RELEASE; }
#define MASK(log) (~0ull >> (64 - (8 << (log))))

/* ---- Atomic places ---- */

/* Places that others left here and all know don't count. */
INLINE int overlaps(int l, u32 at, int log) { return l < places() && AT(orders.places[l]) < at + (1u << log); }

INLINE int is_place(int l, u32 at, int log) {
    u64 p = orders.places[l];
    return AT(p) == at && LOG(p) == log;
}

/* The place of an atomic access, which it makes where there is none. */
static int place_of(u32 at, int log) {
    int l = find(at);
    if (!overlaps(l, at, log))
        return new_place(at, log, -1);
    if (is_place(l, at, log))
        return l;
    for (u64 p; l < places() && (p = orders.places[l], AT(p) <= at && LOG(p) > log && !COUNT(p)); l = find(at))
        split(l); /* it was initialised by a larger store */
    if (overlaps(l, at, log) && !is_place(l, at, log)) {
        remove_known();
        l = find(at);
        if (overlaps(l, at, log))
            atomics_of_mixed_sizes(at);
    }
    return overlaps(l, at, log) ? l : new_place(at, log, -1);
}

static int atomic_place(int t, u32 at, int log, enum does does) {
    if (at & ((1u << log) - 1))
        atomics_of_mixed_sizes(at);
    int l = place_of(at, log);
    u64 p = orders.places[l];
    if (!knows(&orders.current[t], l, WRITE_KNOWN))
        data_race(at, does, orders.wrote[l]);
    if (does != READS && p & (ALL_READERS | MORE))
        check_readers(t, l, does);
    if (!COUNT(p)) {
        put(&orders.near[l][0].value, load_real(at, log));
        orders.places[l] = p | MESSAGES(1);
    }
    return l;
}

/* The oldest message that a thread may read, or store behind, where OLDEST is what it knows. */
INLINE int least_of(int oldest, int l, int order) {
    int sc = order == SEQ_CST && has_psc() ? position(&orders.psc, l) : 0;
    return oldest > sc ? oldest : sc;
}

/* ---- Messages are read and written ---- */

static void read_message(int t, int l, int p, int oldest, int order) {
    int still = p == oldest;
    if (!still)
        set_position(&orders.current[t], l, p);
    if (acquires(order))
        still &= !add(&orders.current[t], &message_at(l, p)->view);
    else if (fences())
        add(&orders.acquirable[t], &message_at(l, p)->view);
    if (still)
        mark(STILL);
}

/* Whether a word of a thread's view has more than that of its message, of other places than that one. Of a place that nobody
   wrote since it is one, all know what was written. */
static __attribute__((noinline)) int has_more(u64 mine, u64 carried, int w, int l) {
    for (int k = PER_WORD; k--;) {
        int i = w * PER_WORD + k;
        cell has = mine >> CELL_BITS * k, had = carried >> CELL_BITS * k, lacks = has & ~had & ALL_KNOWN;
        if (has == had || (i >= l && i < l + cells_of(l)))
            continue;
        if ((has & 255) > (had & 255) || lacks & ~WRITE_KNOWN || (lacks && orders.wrote[i]))
            return 1;
    }
    return 0;
}

/* What a message carries: of one that is GLUED behind another also what that one does. There is none in V yet. Answers what
   isn't known with it of what the thread did before: UNRELEASED, all of it; or SINCE its last release fence; or nothing. */
static u64 release_view(int t, int l, view *v, const view *glued, int order) {
    u32 fence = releases(order) ? 0 : own_fence();
    const view *mine = releases(order) ? &orders.current[t] : fence ? &orders.released[t] : 0;
    int since = 0;
    for (int w = words_used(); w--;) {
        u64 word = glued ? glued->words[w] : 0;
        if (mine)
            word = join(word, mine->words[w]);
        if (fence && !since) {
            u64 all = orders.current[t].words[w];
            if (join(word, all) != word)
                since = has_more(all, word, w, l);
        }
        if (word)
            v->words[w] = word;
    }
#if ORDERS_C11_SEQUENCES
    if (releases(order))
        add(&orders.sequences[t][l], &orders.current[t]);
    add(v, &orders.sequences[t][l]);
#endif
    return mine ? since ? SINCE_FENCE(SITE(fence)) : 0 : UNRELEASED;
}

/* A new message at position P; those from there on go up. Its value is put in by who calls, whose row in a trace has
   the line of source. */
static void write_message(int t, int l, int p, int count, int order, int glued) {
    mark(NEWS);
    add_room(l, count);
    if (count && !(count % LANE))
        add_cells(l, count / LANE + 1);
    if (p < count) {
        raise_all(l, p);
        for (int m = count; m > p; m--)
            move_message(message_at(l, m), message_at(l, m - 1));
    }
    set_count(l, count, count + 1);
    message *made = message_at(l, p);
    set_position(&orders.current[t], l, p);
    u64 lacks = release_view(t, l, &made->view, glued ? &message_at(l, p - 1)->view : 0, order);
    made->about = by_me() | lacks | (glued ? GLUED : 0);
    if (order == SEQ_CST && (!has_psc() || p > position(&orders.psc, l))) {
        use_psc();
        set_position(&orders.psc, l, p);
    }
}

/* ---- Patience: stores are seen in time (C11 7.17.3p16), so that a loop that waits for one ends in each fair run ---- */

INLINE int is_patient(int t, int l, int oldest) {
    if (!ORDERS_PATIENCE || !own_counted())
        return 1;
    return position(&orders.reads[t], l) != oldest || orders.reads[t].at[l] >> 8 < ORDERS_PATIENCE;
}

/* Who has no counts is left out where all views are changed. */
static void set_counts(int t, int counts) {
    set_counted(counts);
    set_counting(counts ? orders.counting | BIT(t) : orders.counting & ~BIT(t));
}

static void count_read(int t, int l, int p, int newest, int for_nothing) {
    view *reads = &orders.reads[t];
    if (!ORDERS_PATIENCE || !(for_nothing || p < newest))
        return;
    int many = own_counted() && position(reads, l) == p ? reads->at[l] >> 8 : 0;
    if (!own_counted())
        set_counts(t, 1);
    set_position(reads, l, p);
    put_cell(reads, l, (reads->at[l] & 255) | (many < ORDERS_PATIENCE ? many + 1 : many) << 8);
}

/* What was counted of a message that the thread can't read any more is nothing. */
static void forget_counts(int t) {
    view *reads = &orders.reads[t], *current = &orders.current[t];
    u64 left = 0;
    if (!own_counted())
        return;
    for (int w = words_used(); w--; left |= reads->words[w])
        if (reads->words[w] && (reads->words[w] ^ current->words[w]) & POSITIONS)
            for (int l = w * PER_WORD; l < (w + 1) * PER_WORD; l++)
                if (position(reads, l) != position(current, l)) {
                    set_position(reads, l, 0);
                    put_cell(reads, l, 0);
                }
    if (!left)
        set_counts(t, 0);
}

/* ---- The same again: what a thread was told where it had no choice is told it again, as long as nobody has written a
   message since. Nothing is known by it that wasn't known, so the tables aren't asked ---- */

/* What: the address; above it the order, 8 times the logarithm of the size, and 64. */
INLINE u64 told_what(u32 at, int log, int order) { return at | (u64)(64 + 8 * log + order) << 32; }

INLINE u64 what_told(u32 i) { return i == 0 ? own_what0() : i == 1 ? own_what1() : i == 2 ? own_what2() : own_what3(); }
INLINE u64 value_told(u32 i) { return i == 0 ? own_value0() : i == 1 ? own_value1() : i == 2 ? own_value2() : own_value3(); }

static void set_told(u32 i, u64 what, u64 value) {
    switch (i) {
    case 0: set_what0(what), set_value0(value); break;
    case 1: set_what1(what), set_value1(value); break;
    case 2: set_what2(what), set_value2(value); break;
    default: set_what3(what), set_value3(value);
    }
}

/* What is found, from 1 on, or 0. */
static u32 find_told(u64 what) {
    u32 i = own_tolds();
    while (i && what_told(i - 1) != what)
        i--;
    return i;
}

/* The same where it's still so, and isn't EXPECTED. Nothing of it is in the frame of who asks, as at the gate. */
static __attribute__((noinline)) u32 find_same(u64 what, int differs, u64 expected) {
    u32 i = find_told(what);
    return i && !(differs && value_told(i - 1) == expected) && atomic_load(&gate) & same_bit(me()) ? i : 0;
}

/* What was told before something was written is nothing. */
static void forget_what_was_told(void) {
    for (u32 i = own_tolds(); i--;)
        set_told(i, 0, 0);
    set_tolds(0);
}

static void tell(u64 what, u64 value) {
    u32 i = own_tolds();
    if (own_marks() & NEWS || i == MOST_TOLD || !has_turns(me()))
        return;
    set_told(i, what, value);
    set_tolds(i + 1);
    mark(NOTING);
}

static __attribute__((noinline)) void forget_what_is_old(int t) {
    if ((own_marks() & (NEWS | NOTING)) != NOTING)
        forget_what_was_told();
    forget_counts(t);
}

static void end_access(int t) {
    forget_what_is_old(t);
    end_operation();
}

/* ---- Loads and stores. The value itself is read or written in the function that the compiler calls: a row of `show`
   has the user's line behind those alone. The newest one is read at the variable's own place ---- */

/* A message in one number, since a struct would be on the stack. */
#define FOUND(l, p) ((u64)(l) << 32 | (u32)(p))
#define FAILED (1ull << 63)
#define TELLS (1ull << 62)  /* the thread was here before, and had no choice */
#define NEWEST (1ull << 61)
INLINE message *message_of(u64 found) { return message_at(found >> 32 & 0xFFFF, (u32)found); }

/* Whether a thread knows all that another one does: all that there is, where that has ended and left nothing. */
static int knows_what(int t, u32 thread) {
    const view *mine = &orders.current[t], *other = &orders.current[slots[thread]];
    if (!is_clear(other))
        return is_in(other, mine);
    for (int l = places(); l--;)
        if (!(orders.places[l] & BEHIND) && !is_known(mine, l))
            return 0;
    return 1;
}

/* What is read is news to the thread: whether with it nothing is known of what its writer did before. */
static void look_at_news(int t, int l, int p, int order, u32 at, int log) {
    u64 by = about_of(l, p);
    if (!ORDERS_NEWS || !by || (acquires(order) && !(by & (UNRELEASED | SINCE))) || knows_what(t, THREAD(by)))
        return;
    say_news(at, log, message_at(l, p)->value, by, by & SINCE ? FENCE_OF(by) | FENCED : 0, acquires(order), fences());
}

static u64 begin_load(u32 at, int log, int order) {
    int again = begin_operation(at, LOADS);
    int t = me(), l = atomic_place(t, at, log, READS), newest = COUNT(orders.places[l]) - 1, p = newest;
    int oldest = position(&orders.current[t], l), least = least_of(oldest, l, order);
    if (least < newest) {
        if (least == oldest && !is_patient(t, l, oldest))
            least++;
        p -= choose(newest - least + 1);
    }
    read_message(t, l, p, oldest, order);
    if (p != oldest && p == newest)
        look_at_news(t, l, p, order, at, log);
    if (again)
        count_read(t, l, p, newest, 0);
    return FOUND(l, p) | (p == newest ? NEWEST : 0) | (again && least == newest ? TELLS : 0);
}

/* What was read where a newer message is there: a row of `show` has it, and the next one the newest. */
#pragma clang attribute pop
static volatile u64 reads_old;
#pragma clang attribute push(__attribute__((nodebug)), apply_to = any(hasType(functionType), variable(unless(is_parameter))))

INLINE void show_old(u32 at, int log, u64 value, u64 found) {
    reads_old = value;
    u64 newest = load_real(at, log);
    reads_old = 0;
    int l = found >> 32 & 0xFFFF;
    say_old(at, log, value, newest, writer_of(l, COUNT(orders.places[l]) - 1));
}

INLINE u64 load(u32 at, int log, int order) {
    u64 found = begin_load(at, log, order);
    u64 value = found & NEWEST ? load_real(at, log) : message_of(found)->value;
    if (!(found & NEWEST))
        show_old(at, log, value, found);
    else if (found & TELLS)
        tell(told_what(at, log, order), value);
    return value;
}

/* Where in modification order a store comes: not between a read-modify-write and what it read. */
static int position_of_store(int l, int count, int least) {
    int p = count, many = 1;
    for (int q = least + 1; q < count; q++)
        many += !(message_at(l, q)->about & GLUED);
    for (int skip = many > 1 ? choose(many) : 0; skip; skip--)
        while (message_at(l, --p)->about & GLUED)
            ;
    return p;
}

static u64 begin_store(u32 at, int log, int order) {
    begin_operation(at, STORES);
    int t = me(), l = atomic_place(t, at, log, WRITES), count = COUNT(orders.places[l]);
    int p = position_of_store(l, count, least_of(position(&orders.current[t], l), l, order));
    write_message(t, l, p, count, order, 0);
    return FOUND(l, p) | (p == count ? NEWEST : 0);
}

INLINE void store(u32 at, int log, u64 value, int order) {
    u64 found = begin_store(at, log, order);
    put(&message_of(found)->value, value);
    if (found & NEWEST)
        store_real(at, log, value);
}

/* ---- Read-modify-writes ---- */

enum kind { SWAP, ADD, SUB, AND, OR, XOR, NAND, MAX, MIN, UMAX, UMIN, COMPARE, COMPARE_WEAK };

INLINE int64_t as_signed(u64 value, int log) {
    int unused = 64 - (8 << log);
    return (int64_t)(value << unused) >> unused;
}

static u64 result(enum kind kind, u64 had, u64 x, int log) {
    switch (kind) {
    case MAX: return as_signed(had, log) > as_signed(x, log) ? had : x;
    case MIN: return as_signed(had, log) < as_signed(x, log) ? had : x;
    case UMAX: return had > x ? had : x;
    case UMIN: return had < x ? had : x;
    case ADD: return had + x;
    case SUB: return had - x;
    case AND: return had & x;
    case OR: return had | x;
    case XOR: return had ^ x;
    case NAND: return ~(had & x);
    default: return x;
    }
}

/* Whether a message may be read by one that succeeds: no other may have read it. */
static int can_change(int l, int q, int newest, enum kind kind, u64 expected, int least) {
    return q >= least && (kind < COMPARE || message_at(l, q)->value == expected) &&
           (q == newest || !(message_at(l, q + 1)->about & GLUED));
}

/* The same of one that fails, which is a load: of another value, or for nothing where it's weak. */
static int can_fail(int t, int l, int q, int newest, int oldest, enum kind kind, u64 expected, int least) {
    if (kind < COMPARE || q < least)
        return 0;
    if (message_at(l, q)->value == expected)
        return kind == COMPARE_WEAK && (q != oldest || is_patient(t, l, oldest)) && !over;
    return q == newest || q != oldest || is_patient(t, l, oldest);
}

/* Which message is read, and FAILED where nothing is written. */
static u64 choose_change(int t, int l, int newest, int oldest, enum kind kind, u64 expected, int order, int failing) {
    int many = 0, least = least_of(oldest, l, order), fails = least_of(oldest, l, failing);
    if (oldest == newest && kind <= COMPARE)
        return kind < COMPARE || message_at(l, newest)->value == expected ? (u64)newest : newest | FAILED;
    for (int q = newest; q >= oldest; q--)
        many += can_change(l, q, newest, kind, expected, least) + can_fail(t, l, q, newest, oldest, kind, expected, fails);
    int skip = many > 1 ? choose(many) : 0;
    for (int q = newest;; q--) {
        if (can_change(l, q, newest, kind, expected, least) && !skip--)
            return q;
        if (can_fail(t, l, q, newest, oldest, kind, expected, fails) && !skip--)
            return q | FAILED;
    }
}

/* The message that was read; the one behind it is that of the change, and NEWEST says of that one whether it is. */
static u64 begin_change(u32 at, int log, enum kind kind, u64 expected, int order, int failing) {
    int again = begin_operation(at, kind < COMPARE ? CHANGES : COMPARES);
    int t = me(), l = atomic_place(t, at, log, CHANGES_IT), newest = COUNT(orders.places[l]) - 1;
    int oldest = position(&orders.current[t], l);
    u64 fails = choose_change(t, l, newest, oldest, kind, expected, order, failing);
    int p = (u32)fails;
    fails &= FAILED;
    if (fails && again && least_of(oldest, l, failing) == newest)
        fails |= TELLS;
    read_message(t, l, p, oldest, fails ? failing : order);
    if (p != oldest && p == newest)
        look_at_news(t, l, p, fails ? failing : order, at, log);
    if (!fails) {
        set_marks(own_marks() & ~STILL);
        write_message(t, l, p + 1, newest + 1, order, 1);
    } else if (again)
        count_read(t, l, p, newest, message_at(l, p)->value == expected);
    return FOUND(l, p) | (p == newest ? NEWEST : 0) | fails; /* fails: FAILED and TELLS */
}

INLINE u64 change_alone(u32 at, int log, enum kind kind, u64 x, u64 expected) {
    u64 had = load_real(at, log);
    if (kind < COMPARE || had == expected)
        store_real(at, log, result(kind, had, x, log) & MASK(log));
    else if (kind == COMPARE_WEAK)
        set_failed(1);
    return had;
}

INLINE u64 modify(u32 at, int log, enum kind kind, u64 x, u64 expected, int order, int failing) {
    u64 found = begin_change(at, log, kind, expected, order, failing);
    u64 had = found & FAILED && found & NEWEST ? load_real(at, log) : message_of(found)->value;
    if (found & FAILED) {
        if (!(found & NEWEST))
            show_old(at, log, had, found);
        else if (found & TELLS && had != expected)
            tell(told_what(at, log, failing), had);
    } else {
        u64 value = result(kind, had, x, log) & MASK(log);
        put(&message_of(found + 1)->value, value);
        if (found & NEWEST)
            store_real(at, log, value);
    }
    if (kind == COMPARE_WEAK && found & FAILED)
        set_failed(1);
    return had;
}

/* ---- Fences: C11 7.17.4.1 ---- */

/* What all fences before this one had seen, it has seen. It orders places, and nothing happens before by it. */
static void join_psc(int t) {
    for (int w = words_used(); w--;) {
        u64 mine = orders.current[t].words[w];
        u64 both = greater(mine & POSITIONS, orders.psc.words[w]);
        put(&orders.current[t].words[w], (mine & ~POSITIONS) | both);
        put(&orders.psc.words[w], both);
        if (both)
            use_psc();
    }
}

void __wathread_fence(int order, u32 site) {
    if (!is_parallel() || order == RELAXED)
        return;
    begin_operation(0, FENCES);
    int t = me();
    if (acquires(order)) {
        add(&orders.current[t], &orders.acquirable[t]);
        clear(&orders.acquirable[t]);
    }
    if (order == SEQ_CST)
        join_psc(t);
    if (releases(order)) {
        copy(&orders.released[t], &orders.current[t]);
        set_fence(site | FENCED);
    }
    end_access(t);
}

static u64 joined;          /* bits by numbers: its end was taken, or nobody's, and may be asked for again */

/* ---- In front of a trap that the program or the library asks for: who may still read what is old ---- */

static u32 thread_of(int slot) {
    u32 thread = slot ? 1 : 0;
    while (thread && thread < NUMBERS - 1 && (slots[thread] != slot || joined >> thread & 1))
        thread++;
    return thread;
}

static void say_view(int t, int l, int newest, int log) {
    SAY(", and ");
    say_thread(thread_of(t));
    SAY(" may still read ");
    for (int p = position(&orders.current[t], l); p < newest; p++) {
        if (p != position(&orders.current[t], l))
            SAY(" or ");
        say_value(message_at(l, p)->value, log);
    }
}

/* Of each atomic place that has so many messages. */
static void say_all_views(int least) {
    u64 readers = looking;
    for (int l = 0; l < places(); l++) {
        u64 place = orders.places[l];
        int newest = COUNT(place) - 1;
        if (COUNT(place) < least || place & BEHIND)
            continue;
        begin_line();
        say_name(SITE(writer_of(l, newest)), AT(place));
        SAY(" is ");
        say_value(message_at(l, newest)->value, LOG(place));
        for (int t = 0; readers >> t; t++)
            if (readers >> t & 1 && position(&orders.current[t], l) < newest)
                say_view(t, l, newest, LOG(place));
        end_line();
    }
}

void __wathread_traps(void) {
    if (is_parallel()) {
        enter_behind_start(me(), 0, 0);
        say_all_views(2);
        fails_inside();
    } else
        tell_helper(OVER);
}

/* The same at a moment that the program chooses. */
void __wathread_views(void) {
    if (!is_parallel())
        return;
    begin_operation(0, OTHERS);
    say_all_views(2);
    leave(me());
}

/* What wathread-views invokes in a run of its own, over the memory of a moment at which nobody is inside: of all atomic
   places. Answers where the gate is, by which it finds such a moment. */
EXPORT("wathread_views") u32 __wathread_all_views(void) {
    set_head(head_inside());
    say_all_views(1);
    return (u32)&gate;
}

/* ---- Threads ---- */

static u64 detached;        /* bits by slots */
static u64 left;            /* main's bit, while it has left and waits until all others have ended */
static u8 joiner[THREADS];  /* who waits for a thread's end: its slot, plus 1 */
static u32 results[NUMBERS];
static int chosen;          /* the slot of the thread that is started */
static int will_end;        /* `main` was invoked, so orders_ends is called at its end */

void orders_begins_call(int main) { will_end = main; }

int __wathread_fences(void); /* start.s */

void orders_start_begins(void) {
    if (!is_parallel()) {
        enter(0, 0); /* who was joined last may be about to leave */
        simulates = running = having = looking = 1;
        set_parallel(1);
        set_slot(0);
        slots[thread_self()] = 0;
        if (__wathread_fences())
            put_head(own_head() | HAS_FENCES);
    } else
        begin_operation(0, THREADS_OWN);
    for (chosen = 0; (running | ended) >> chosen & 1; chosen++)
        ;
}

int orders_spawn(int place) {
    if (place >= __wathread_most()) /* one is the helper's */
        return -1;
    slots_of_starts[place] = chosen;
    int made = helper;
    if (!made)
        return spawn_at(place);
    tell_helper(BECOMES + place);
    helper = 0;
    return made;
}

void orders_start_ends(int thread) {
    if (thread > 0) {
        slots[thread] = chosen;
        running |= BIT(chosen);
        looks_again();
        copy(&orders.current[chosen], &orders.current[me()]);
    }
    set_stays(1);
}

/* What it knows by fences, and has counted. */
static void forget_own(int t) {
    if (fences()) {
        clear(&orders.acquirable[t]);
        clear(&orders.released[t]);
    }
    if (own_head() & HAS_COUNTS && orders.counting >> t & 1) {
        clear(&orders.reads[t]);
        set_counting(orders.counting & ~BIT(t));
    }
}

static void forget_views(int t) {
    clear(&orders.current[t]);
    forget_own(t);
#if ORDERS_C11_SEQUENCES
    for (int l = 0; l < PLACES; l++)
        clear(&orders.sequences[t][l]);
#endif
}

static void take_end(int t, int of) {
    add(&orders.current[t], &orders.current[of]);
    set_ended(ended & ~BIT(of));
    forget_views(of);
}

/* All tables are as they were at first. */
static void end_all(int t) {
    forget_views(t);
    set_counted(0);
    set_fence(0);
    if (has_psc())
        clear(&orders.psc);
    for (int l = places(); l--;) {
        int count = COUNT(orders.places[l]);
        for (int m = count; m--;)
            clear_message(message_at(l, m));
        set_count(l, count, 0);
        orders.places[l] = 0;
        if (orders.wrote[l])
            orders.wrote[l] = 0;
    }
    put_head(0);
}

/* Once a thread is alone and knows all, nothing has to be simulated any more. */
static void end_parallel(int t) {
    if (running != BIT(t) || ended)
        return;
    for (int l = 0; l < places(); l++)
        if (!(orders.places[l] & BEHIND) && !is_known_to_all(l))
            return;
    end_all(t);
    simulates = 0;
    tell_helper(will_end ? RESTS : OVER);
    if (!will_end)
        helper = 0;
}

static void wake_main(void) {
    set_joining(joining & ~left);
    left = 0;
    wakes(&waits_for[slots[0]]);
}

void orders_ends(int thread, unsigned result) {
    if (!is_parallel()) {
        tell_helper(OVER);
        return;
    }
    begin_operation(0, THREADS_OWN);
    int t = slots[thread], by = joiner[t] - 1;
    results[thread] = result;
    set_ended(ended | BIT(t));
    if (by >= 0)
        sleeping &= ~BIT(by);
    if ((running & ~BIT(t)) == left)
        sleeping &= ~left;
    is_gone(t);
    forget_own(t);
    set_counted(0); /* what has ended makes no states */
    set_fence(0);
    set_done(0);
    forget_what_was_told();
    if (by >= 0) {
        joiner[t] = 0;
        set_joining(joining & ~BIT(by));
        joined |= 1ull << thread;
        take_end(by, t);
        end_parallel(by);
    } else if (detached >> t & 1 && !left) {
        joined |= 1ull << thread;
        detached &= ~BIT(t);
        set_ended(ended & ~BIT(t));
        forget_views(t);
    }
    if (by >= 0)
        wakes(&thread_end[thread]);
    if (left && running == left)
        wake_main();
    end_operation();
}

/* Another function than main has left others there. */
void orders_left(void) {
    if (is_parallel())
        orders_ends(0, 0);
}

/* Who joins it waits no more. What others knew whose ends nobody took, main knows in the end. */
void orders_main_left(unsigned result) {
    if (!is_parallel())
        return;
    begin_operation(0, THREADS_OWN);
    int t = me(), by = joiner[t] - 1;
    results[0] = result;
    joined |= 1;
    if (by >= 0) {
        joiner[t] = 0;
        set_joining(joining & ~BIT(by));
        sleeping &= ~BIT(by);
        add(&orders.current[by], &orders.current[t]);
        wakes(&thread_end[0]);
    }
    if (running != BIT(t)) {
        left = BIT(t);
        set_joining(joining | left);
        falls_asleep(t, &waits_for[t], ALL_ENDS);
        end_operation();
        sleeps(&waits_for[t], ALL_ENDS, -1);
        begin_operation(0, OTHERS);
    }
    for (int thread = NUMBERS; --thread;)
        if (ended >> slots[thread] & 1) {
            joined |= 1ull << thread;
            take_end(t, slots[thread]);
        }
    detached = BIT(t);
    end_parallel(t);
    set_parallel(simulates);
    end_operation();
}

int orders_has_ended(int thread) {
    if (!is_parallel())
        return 1;
    begin_operation(0, OTHERS);
    int is = (joined >> thread & 1) || (ended >> slots[thread] & 1);
    leave(me());
    return is;
}

/* Where the time was over: whether the thread ended meanwhile all the same. */
static int is_late(int t, int thread) {
    begin_operation(0, OTHERS);
    int of = slots[thread], late = joiner[of] == t + 1;
    if (late) {
        joiner[of] = 0;
        set_joining(joining & ~BIT(t));
        thread_end[thread] = 0;
        sleeping &= ~BIT(t);
    }
    leave(me());
    return late;
}

/* Whether it sleeps until then. Nothing of it is in the frame of who sleeps: it would make more states. */
static __attribute__((noinline)) int begin_join(int thread, long long nanoseconds) {
    begin_operation(0, nanoseconds < 0 ? THREADS_OWN : OTHERS);
    int t = me(), of = slots[thread], waits = !((joined >> thread | ended >> of) & 1);
    if (joined >> thread & 1) {
        if (!thread) /* main, which is there still */
            add(&orders.current[t], &orders.current[of]);
    } else if (!waits) {
        joined |= 1ull << thread;
        take_end(t, of);
        end_parallel(t);
        set_parallel(simulates);
    } else {
        joiner[of] = t + 1;
        set_joining(joining | BIT(t));
        falls_asleep(t, &thread_end[thread], 1);
    }
    end_access(t);
    return waits;
}

int orders_joins(int thread, unsigned *result, long long nanoseconds) {
    if (begin_join(thread, nanoseconds)) {
        if (sleeps(&thread_end[thread], 1, nanoseconds) == 2 && is_late(me(), thread))
            return 2;
        set_parallel(simulates);
        if (!simulates) {
            set_counted(0);
            set_fence(0);
        }
    }
    *result = results[thread];
    return 0;
}

void orders_detached(int thread) {
    begin_operation(0, OTHERS);
    int t = slots[thread];
    if (ended >> t & 1 && !left) {
        joined |= 1ull << thread;
        set_ended(ended & ~BIT(t));
        forget_views(t);
    } else
        detached |= BIT(t);
    end_operation();
}

/* ---- Waits: the newest value is compared, under the gate, and nothing happens before by a wait ---- */

static u8 queue[THREADS]; /* who sleeps on a word, plus 1, in order of falling asleep */

static void unqueue(int i) {
    for (; i < THREADS - 1 && queue[i]; i++)
        queue[i] = queue[i + 1];
    queue[i] = 0;
}

static int ends_by_time(int t) {
    begin_operation(0, OTHERS);
    int i = 0;
    while (i < THREADS && queue[i] != t + 1)
        i++;
    if (i < THREADS) {
        unqueue(i);
        waits_for[t] = 0;
        sleeping &= ~BIT(t);
    }
    leave(me());
    return i < THREADS ? 2 : 0;
}

static int waits(u32 at, int log, u64 value, long long nanoseconds) {
    begin_operation(at, WAITS);
    int t = me(), differs = load_real(at, log) != value;
    if (differs || !nanoseconds) {
        leave(me());
        return differs ? 1 : 2;
    }
    int i = 0;
    while (queue[i])
        i++;
    queue[i] = t + 1;
    falls_asleep(t, &waits_for[t], at);
    leave(me());
    return sleeps(&waits_for[t], at, nanoseconds) == 2 ? ends_by_time(t) : 0;
}

int __wathread_wait32(u32 word, int value, long long nanoseconds) {
    if (!is_parallel())
        return __builtin_wasm_memory_atomic_wait32((int *)word, value, nanoseconds);
    return waits(word, 2, (u32)value, nanoseconds);
}

int __wathread_wait64(u32 word, long long value, long long nanoseconds) {
    if (!is_parallel())
        return __builtin_wasm_memory_atomic_wait64((long long *)word, value, nanoseconds);
    return waits(word, 3, value, nanoseconds);
}

unsigned __wathread_notify(u32 word, unsigned most) {
    if (!is_parallel())
        return 0;
    begin_operation(word, WAITS);
    unsigned many = 0;
    for (int i = 0; many < most && i < THREADS && queue[i];)
        if (waits_for[queue[i] - 1] == word) {
            int t = queue[i] - 1;
            unqueue(i);
            sleeping &= ~BIT(t);
            wakes(&waits_for[t]);
            many++;
        } else
            i++;
    leave(me());
    return many;
}

/* ---- Blocks that were freed: who still uses one races, or comes too late ---- */

static void leave_out_freed(int i) {
    for (; i < FREED - 1 && orders.freed[i].size; i++) {
        orders.freed[i].at = orders.freed[i + 1].at;
        orders.freed[i].size = orders.freed[i + 1].size;
    }
    orders.freed[i].at = orders.freed[i].size = 0;
}

/* Sorted by addresses; blocks that are next to one another in the pool, with a front in between, are one. */
static void put_in_freed(u32 at, u32 size) {
    int i = 0, many = 0;
    while (many < FREED && orders.freed[many].size)
        many++;
    while (i < many && orders.freed[i].at < at)
        i++;
    if (i && orders.freed[i - 1].at + orders.freed[i - 1].size + FRONT >= at) {
        i--;
        size += at - orders.freed[i].at;
    } else {
        for (int k = many; k > i; k--) {
            orders.freed[k].at = orders.freed[k - 1].at;
            orders.freed[k].size = orders.freed[k - 1].size;
        }
        orders.freed[i].at = at;
    }
    orders.freed[i].size = size;
    if (i + 1 < FREED && orders.freed[i + 1].size && orders.freed[i].at + size + FRONT >= orders.freed[i + 1].at) {
        orders.freed[i].size = orders.freed[i + 1].at + orders.freed[i + 1].size - orders.freed[i].at;
        leave_out_freed(i + 1);
    }
}

static void forget_places(u32 at, u32 size, int touches) {
    mark(NEWS);
    for (int l = places(); l--;)
        if (!(orders.places[l] & BEHIND) && AT(orders.places[l]) - at < size) {
            if (touches)
                touch(l, FREES);
            remove_place(l);
        }
}

void orders_freed(void *block, unsigned size) {
    if (!is_parallel())
        return;
    begin_operation(0, OTHERS);
    forget_places((u32)block, size, 1);
    if (size) { /* malloc(0) has a front alone */
        put_in_freed((u32)block, size);
        ((u32 *)block)[-1] = by_me();
    }
    leave(me());
}

/* With --reuse: what was freed is a new block, whose bytes nobody has touched. */
void orders_taken(void *block, unsigned size) {
    u32 at = (u32)block;
    if (!is_parallel())
        return;
    begin_operation(0, OTHERS);
    for (int i = 0; i < FREED && orders.freed[i].size; i++) {
        u32 first = orders.freed[i].at, had = orders.freed[i].size;
        if (at - first >= had)
            continue;
        leave_out_freed(i);
        if (at - first > FRONT)
            put_in_freed(first, at - first - FRONT);
        if (first + had > at + size + FRONT)
            put_in_freed(at + size + FRONT, first + had - at - size - FRONT);
        break;
    }
    leave(me());
}

/* ---- A later call: threads of the one before are gone, wherever they were. Blocks that were freed stay so ---- */

static void forget_tables(void) {
    if (gate & HELD) /* somebody was in the middle of an operation */
        for (u64 *word = (u64 *)&orders; word < (u64 *)orders.freed; word++)
            put(word, 0);
    set_head(head_inside());
    for (int t = 0; t < THREADS; t++)
        forget_views(t);
    end_all(0);
}

void orders_forget(void) {
    forget_tables();
    gate = running = sleeping = ended = 0;
    having = looking = joining = joined = detached = left = 0;
    simulates = helper = rests = over = 0;
    for (int thread = 0; thread < NUMBERS; thread++) {
        slots[thread] = 0;
        dice[thread] = IDLE;
        thread_end[thread] = 0;
    }
    for (int t = 0; t < THREADS; t++) {
        waits_for[t] = 0;
        joiner[t] = queue[t] = 0;
    }
}

void orders_reads(const void *from, unsigned size) { note((u32)from, size, READ, own_site()); }
void orders_writes(void *to, unsigned size) { note((u32)to, size, WRITE, own_site()); }

/* ---- What the compiler's text calls (simulate.py): with numbers below 32 bits in 32, and addresses as numbers. The last
   argument is where that is in the source ---- */

/* An operation at a site, or where there is none, at that of the call that it is a part of. */
#define AT_SITE(operation)                                                                                             \
    {                                                                                                                  \
        u32 was = own_site();                                                                                          \
        if (site)                                                                                                      \
            set_site(site);                                                                                            \
        operation;                                                                                                     \
        end_access(me());                                                                                              \
        set_site(was);                                                                                                 \
    }
#define ATOMICS(bits, log, type)                                                                                       \
    type __wathread_load##bits(u32 at, int order, u32 site) {                                                          \
        if (!is_parallel())                                                                                            \
            return load_real(at, log);                                                                                 \
        u32 i = find_same(told_what(at, log, order), 0, 0);                                                            \
        if (i)                                                                                                         \
            return value_told(i - 1);                                                                                  \
        type had;                                                                                                      \
        AT_SITE(had = load(at, log, order))                                                                            \
        return had;                                                                                                    \
    }                                                                                                                  \
    void __wathread_store##bits(u32 at, type x, int order, u32 site) {                                                 \
        if (is_parallel())                                                                                             \
            AT_SITE(store(at, log, x & MASK(log), order))                                                              \
        else                                                                                                           \
            store_real(at, log, x & MASK(log));                                                                        \
    }                                                                                                                  \
    type __wathread_change##bits(u32 at, int kind, type x, int order, u32 site) {                                      \
        if (!is_parallel())                                                                                            \
            return change_alone(at, log, kind, x & MASK(log), 0);                                                      \
        type had;                                                                                                      \
        AT_SITE(had = modify(at, log, kind, x & MASK(log), 0, order, 0))                                               \
        return had;                                                                                                    \
    }                                                                                                                  \
    type __wathread_compare##bits(u32 at, type expected, type x, int order, int failing, int weak, u32 site) {         \
        enum kind kind = weak ? COMPARE_WEAK : COMPARE;                                                                \
        if (!is_parallel())                                                                                            \
            return change_alone(at, log, kind, x & MASK(log), expected & MASK(log));                                   \
        u32 i = find_same(told_what(at, log, failing), 1, expected & MASK(log));                                       \
        if (i) {                                                                                                       \
            set_failed(weak);                                                                                          \
            return value_told(i - 1);                                                                                  \
        }                                                                                                              \
        type had;                                                                                                      \
        AT_SITE(had = modify(at, log, kind, x & MASK(log), expected & MASK(log), order, failing))                      \
        return had;                                                                                                    \
    }
#pragma clang attribute pop
ATOMICS(8, 0, u32)
ATOMICS(16, 1, u32)
ATOMICS(32, 2, u32)
ATOMICS(64, 3, u64)

int __wathread_failed(void) {
    int failed = own_failed();
    set_failed(0);
    return failed;
}
void __wathread_at(u32 site) { set_site(site); } /* around a call of the library */
void __wathread_reads(u32 at, u32 size, u32 site) { note(at, size, READ, site); }
void __wathread_writes(u32 at, u32 size, u32 site) { note(at, size, WRITE, site); }
