/* Plain accesses: whether each knows the last plain write of its bytes, and a write all that was done there (C11
   5.1.2.4p25). They are noted, and looked at by the thread's next operation: until then nothing that it knows, or that is
   known of it, has changed. */

enum { PENDING = 16, READ = 1, WRITE = 2, MOST_BYTES = (1 << 14) - 1 };
static _Thread_local u64 pending[PENDING];
/* Such a word: the address, of a module's 256 pages; how many bytes; READ or WRITE; and the site. */
#define ACCESS(at, size, kind, site) ((at) | (u64)(size) << 24 | (u64)(kind) << 38 | (u64)(site) << 40)
#define BYTES_OF(access) ((access) & (1ull << 38) - 1)

int __wathread_is_constant(u32 at); /* start.s */

INLINE u64 load_real(u32 at, int log) {
    switch (log) {
    case 0: return *(volatile u8 *)at;
    case 1: return *(volatile u16 *)at;
    case 2: return *(volatile u32 *)at;
    default: return *(volatile u64 *)at;
    }
}

INLINE void store_real(u32 at, int log, u64 value) {
    switch (log) {
    case 0: *(volatile u8 *)at = value; break;
    case 1: *(volatile u16 *)at = value; break;
    case 2: *(volatile u32 *)at = value; break;
    default: *(volatile u64 *)at = value;
    }
}

/* Who reads by this slot, as it is said: not known where several threads have had it. */
static u32 reader_of(int slot) {
    u32 found = 0;
    for (u32 thread = slot ? 1 : NUMBERS; thread < NUMBERS; thread++)
        if (slots[thread] == slot) {
            if (found)
                return WHO_READ;
            found = thread;
        }
    return WHO_READ | (found + 1) << SITE_BITS;
}

/* Who writes, and doesn't know a read, by the bits of those of a cell. */
TRAPS races_with_reader(u32 at, enum does does, int first, cell unknown) {
    int slot = first;
    while (!(unknown & READ_KNOWN(slot)))
        slot++;
    data_race(at, does, reader_of(slot));
}

static void check_readers(int t, int l, enum does does) {
    u64 p = orders.places[l];
    for (int k = 0;; k++) {
        cell want = (cell)((p & ALL_READERS) >> 36 << 9);
        if (t / READERS == k)
            want &= ~READ_KNOWN(t);
        if (want && !knows(&orders.current[t], l + k, want))
            races_with_reader(AT(p), does, k * READERS, want & ~orders.current[t].at[l + k]);
        if (!(p & MORE))
            return;
        p = orders.places[l + k + 1];
    }
}

static void touch_reading(int t, int l) {
    if (t >= READERS)
        add_cells(l, t / READERS + 1);
    int at = l + t / READERS;
    u64 p = orders.places[at];
    if (p & READER(t))
        forget_all(at, READ_KNOWN(t)); /* others know of an earlier one */
    else
        orders.places[at] = p | READER(t);
    learn(&orders.current[t], at, READ_KNOWN(t));
}

/* An atomic that is initialised anew has one message, and all have to know this write. */
static void begin_anew(int l) {
    u64 p = orders.places[l];
    mark(NEWS);
    lower_all(l, COUNT(p));
    for (int m = COUNT(p); m--;)
        clear_message(message_at(l, m));
    set_count(l, COUNT(p), 1);
    put(&orders.near[l][0].value, load_real(AT(p), LOG(p)));
}

static void touch(int l, enum does does) {
    int t = me();
    u64 p = orders.places[l];
    if (!knows(&orders.current[t], l, WRITE_KNOWN))
        data_race(AT(p), does, orders.wrote[l]);
    if (COUNT(p) && position(&orders.current[t], l) != COUNT(p) - 1)
        data_race(AT(p), does, writer_of(l, COUNT(p) - 1) & ~UNRELEASED);
    if (does == READS) {
        touch_reading(t, l);
        return;
    }
    check_readers(t, l, does);
    orders.wrote[l] = by_me();
    if (COUNT(p))
        begin_anew(l);
    for (int k = cells_of(l); k--;) {
        p = orders.places[l + k];
        if (p & ALL_READERS)
            orders.places[l + k] = p & ~ALL_READERS;
        forget_all(l + k, ALL_KNOWN);
    }
    learn(&orders.current[t], l, WRITE_KNOWN);
    if (p & MORE)
        take_cells(l);
}

/* As large a place as fits in between. */
static int touch_new(u32 at, u32 room, int writes) {
    int log = 3;
    while (1u << log > room || at & ((1u << log) - 1))
        log--;
    int l = new_place(at, log, writes ? me() : -1);
    if (!writes)
        touch_reading(me(), l);
    return 1 << log;
}

/* Each place that lies in these bytes; places are as large as their accesses, and split where one touches a part. */
static void touch_bytes(u32 at, u32 size, int writes) {
    for (u32 end = at + size; at < end;) {
        int l = find(at);
        u64 p = l < places() ? orders.places[l] : 0;
        int meets = l < places() && AT(p) < end;
        if (meets && !COUNT(p) && (AT(p) < at || end_of(p) > end))
            split(l);
        else if (meets && AT(p) <= at) {
            touch(l, writes ? WRITES : READS); /* of an atomic a part is all */
            at = end_of(p);
        } else
            at += touch_new(at, meets ? AT(p) - at : end - at, writes);
    }
}

/* At the beginning of each operation, inside. */
static void look_at_noted(void) {
    int many = own_noted();
    u32 site = own_site();
    for (int i = 0; i < many; i++) {
        u64 access = pending[i];
        pending[i] = 0;
        set_site(access >> 40);
        touch_bytes(access & 0xFFFFFF, access >> 24 & MOST_BYTES, access >> 38 & WRITE);
    }
    set_noted(0);
    set_site(site);
}

/* THREADS_OWN: starts, joins and ends, which come to the same in front of what a new thread does and behind it. */
enum operation { LOADS, STORES, CHANGES, COMPARES, FENCES, WAITS, OTHERS, THREADS_OWN };

INLINE u32 number_of(u32 at, enum operation what) { return ((at >> 2) * 5 + what) & 63; }
INLINE u32 often_bit(u32 number) { return 1u << (number & 31); }

/* Who does something for the first time is in no loop yet in which all was done before. */
static int is_again(u32 number, enum operation what) {
    u64 had = own_done(), bit = 1ull << number;
    if (!(had & bit)) {
        set_done(had | bit);
        set_often(0);
        return 0;
    }
    if (what != LOADS)
        set_often(own_often() | often_bit(number));
    return 1;
}

static void forget_what_was_told(void);

/* Answers whether the thread may have done the same before. Who does it for the third time may do so for ever, and opens the
   gate to others; who loads does so where no more can be told, and is else told the same again, which keeps nobody out. */
static int begin_operation(u32 at, enum operation what) {
    int t = me();
    u32 number = number_of(at, what);
    int again = what == LOADS ? own_tolds() == MOST_TOLD : what < OTHERS && own_often() & often_bit(number);
    enter_behind_start(t, again, what == THREADS_OWN);
    if (!(own_inside() & same_bit(t)))
        forget_what_was_told();
    look_at_noted();
    return what < OTHERS && is_again(number, what);
}

/* Whether it's noted already, or more: a write is more than a read. */
static int is_noted(u64 access) {
    for (int i = 0; i < own_noted(); i++) {
        u64 had = pending[i];
        if (BYTES_OF(had) == BYTES_OF(access)) {
            if (access >> 38 & WRITE && !(had >> 38 & WRITE))
                pending[i] = access;
            return 1;
        }
    }
    return 0;
}

static void note_some(u32 at, u32 size, u32 kind, u32 site) {
    u64 access = ACCESS(at, size, kind, site);
    if (is_noted(access))
        return;
    if (own_noted() == PENDING) {
        begin_operation(0, OTHERS);
        leave(me());
    }
    pending[own_noted()] = access;
    set_noted(own_noted() + 1);
}

static void note(u32 at, u32 size, u32 kind, u32 site) {
    if (!is_parallel() || (kind == READ && __wathread_is_constant(at)) || (at | size) >> SITE_BITS)
        return; /* what is out of bounds is a trap */
    for (; size > MOST_BYTES; at += MOST_BYTES, size -= MOST_BYTES)
        note_some(at, MOST_BYTES, kind, site);
    if (size)
        note_some(at, size, kind, site);
}
