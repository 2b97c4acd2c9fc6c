/* Places, messages and views. All tables are sorted by address, and cleaned of what nobody can read any more, so that
   what comes to the same is the same state of a search. Each access of them is an entry of a record, so a word has as much
   as goes in, and is written only where it changes. */

/* What is known of a place, in a view: in the low byte how old a message may be, by its position in modification order;
   above it bits for what happens before, of the last plain write and of each thread's last plain read. A place has more
   cells where this isn't enough: cell K has what positions are above K * LANE, up to LANE, so that the greater one of two
   positions is in each of its cells the greater one of both; and the reads of threads from K * READERS on. */
typedef u16 cell;
enum { CELL_BITS = 16, PER_WORD = 4, WORDS = PLACES / PER_WORD, LANE = 127, READERS = 7 };
#define ONES 0x0001000100010001u
#define POSITIONS (ONES * 255)
#define WRITE_KNOWN ((cell)0x100)
#define READ_KNOWN(t) ((cell)(0x200u << ((t) % READERS)))
#define ALL_KNOWN ((cell)0xFF00)

typedef union { cell at[PLACES]; u64 words[WORDS]; } view;

/* Below: who wrote it (orders_says.h), but of the oldest one, which nobody reads as news. GLUED: a read-modify-write put it
   there, and nothing comes between it and what that read. SINCE: it was put there behind a release fence, whose site stands
   above, and who did it had done in between what isn't known with it. */
typedef struct { u64 value, about; view view; } message;
#define GLUED (1ull << 32)
#define SINCE (1ull << 33)
#define SINCE_FENCE(site) (SINCE | (u64)(site) << 34)
#define FENCE_OF(about) ((u32)((about) >> 34))

/* A place is a word: its address, the logarithm of its bytes, MORE where the next cell is its own too, which is then BEHIND;
   a bit for each thread that read it plainly since the last plain write; and how many messages it has, none where there was
   no atomic access yet. */
#define AT(p) ((u32)(p))
#define LOG(p) ((int)((p) >> 32 & 3))
#define MORE (1ull << 34)
#define BEHIND (1ull << 35)
#define READER(t) (1ull << (36 + (t) % READERS))
#define ALL_READERS (127ull << 36)
#define COUNT(p) ((int)((p) >> 43))
#define MESSAGES(n) ((u64)(n) << 43)
#define ALL_MESSAGES (~0ull << 43)
INLINE u64 a_place(u32 at, int log) { return at | (u64)log << 32; }
INLINE u32 end_of(u64 p) { return AT(p) + (1u << LOG(p)); }

/* How many places there are, and whether the program has fences, has made a sequentially consistent store that somebody may
   not know, and a thread has counted what it read. */
#define HOW_MANY 0xFFFFu
#define HAS_FENCES 0x10000u
#define HAS_PSC 0x20000u
#define HAS_COUNTS 0x40000u

static struct {
    u32 head;
    u64 counting;                              /* bits by slots: who has counted what it read */
    u64 places[PLACES];
    u32 wrote[PLACES];                         /* who wrote a place plainly, the last one (orders_says.h) */
    message near[PLACES][NEAR];                /* the oldest messages of each place */
    u16 far[PLACES];                           /* where those behind them begin: a page, plus 1 */
    u16 next[PAGES];                           /* the one behind a page, plus 1, or LAST; 0: nobody's */
    message pages[PAGES][PAGE];
    view current[THREADS];                     /* what each thread knows */
    view acquirable[THREADS], released[THREADS]; /* by its next acquire fence; since its last release fence */
    view psc;                                  /* positions alone: where sequentially consistent ones have come to */
    view reads[THREADS];                       /* how often a thread read the oldest message it may: above its position */
#if ORDERS_C11_SEQUENCES
    view sequences[THREADS][PLACES];           /* what a thread's later stores to a place release */
#endif
    struct { u32 at, size; } freed[FREED];
} orders;
enum { LAST = 0xFFFF };

static u32 head_inside(void) { return orders.head; }
static void put_head(u32 head) {
    orders.head = head;
    set_head(head);
}
INLINE int places(void) { return own_head() & HOW_MANY; }
INLINE int fences(void) { return own_head() & HAS_FENCES; }
INLINE int has_psc(void) { return own_head() & HAS_PSC; }
static void use_psc(void) {
    if (!has_psc())
        put_head(own_head() | HAS_PSC);
}
static void set_counting(u64 who) {
    orders.counting = who;
    put_head(who ? own_head() | HAS_COUNTS : own_head() & ~HAS_COUNTS);
}

/* ---- Views ---- */

INLINE int words_used(void) { return (places() + PER_WORD - 1) / PER_WORD; }
INLINE int knows(const view *v, int l, cell what) { return (v->at[l] & what) == what; }

INLINE void put(u64 *word, u64 value) {
    if (*word != value)
        *word = value;
}
INLINE void put_cell(view *v, int l, cell value) {
    if (v->at[l] != value)
        v->at[l] = value;
}
INLINE void learn(view *v, int l, cell what) {
    cell had = v->at[l];
    if ((had & what) != what)
        v->at[l] = had | what;
}

static __attribute__((noinline)) int far_position(const view *v, int l) {
    int p = LANE;
    for (; orders.places[l] & MORE; l++)
        p += v->at[l + 1] & 255;
    return p;
}

INLINE int position(const view *v, int l) {
    int p = v->at[l] & 255;
    return p < LANE ? p : far_position(v, l);
}

static __attribute__((noinline)) void set_far_position(view *v, int l, int p) {
    for (; orders.places[l] & MORE; l++) {
        p = p > LANE ? p - LANE : 0;
        put_cell(v, l + 1, (v->at[l + 1] & ALL_KNOWN) | (p < LANE ? p : LANE));
    }
}

INLINE void set_position(view *v, int l, int p) {
    cell had = v->at[l], now = (had & ALL_KNOWN) | (p < LANE ? p : LANE);
    if (had != now)
        v->at[l] = now;
    if (p > LANE || (had & 255) == LANE)
        set_far_position(v, l, p);
}

/* The positions of two words, lane by lane: each is below 128. */
INLINE u64 greater(u64 a, u64 b) {
    u64 mask = (((a | ONES << 7) - b) >> 7 & ONES) * 255;
    return (a & mask) | (b & ~mask);
}
INLINE u64 lesser(u64 a, u64 b) { return a + b - greater(a, b); }

INLINE u64 join(u64 a, u64 b) {
    return a == b ? a : greater(a & POSITIONS, b & POSITIONS) | ((a | b) & ~POSITIONS);
}

/* Adds what is in another view, and answers whether that was news. */
static int add(view *to, const view *from) {
    int news = 0;
    for (int w = words_used(); w--;) {
        u64 b = from->words[w];
        if (b) {
            u64 a = to->words[w], both = join(a, b);
            if (a != both) {
                to->words[w] = both;
                news = 1;
            }
        }
    }
    return news;
}

static void copy(view *to, const view *from) {
    for (int w = words_used(); w--;)
        put(&to->words[w], from->words[w]);
}

static void clear(view *v) { /* behind the places that are there all is zero */
    for (int w = words_used(); w--;)
        put(&v->words[w], 0);
}

static int is_clear(const view *v) {
    int w = words_used();
    while (w && !v->words[w - 1])
        w--;
    return !w;
}

/* ---- Messages: few of a place lie beside it, and the others in pages, one behind the other ---- */

static __attribute__((noinline)) message *far_message(int l, int m) {
    int page = orders.far[l] - 1;
    for (m -= NEAR; m >= PAGE; m -= PAGE)
        page = orders.next[page] - 1;
    return &orders.pages[page][m];
}

INLINE message *message_at(int l, int m) { return m < NEAR ? &orders.near[l][m] : far_message(l, m); }

INLINE u64 about_of(int l, int m) { return message_at(l, m)->about; }
INLINE u32 writer_of(int l, int m) { return (u32)about_of(l, m); }

static void clear_message(message *m) {
    put(&m->value, 0);
    put(&m->about, 0);
    clear(&m->view);
}

/* To where there is none. */
static void move_message(message *to, message *from) {
    u64 value = from->value, about = from->about;
    if (value) {
        to->value = value;
        from->value = 0;
    }
    if (about) {
        to->about = about;
        from->about = 0;
    }
    for (int w = words_used(); w--;) {
        u64 word = from->view.words[w];
        if (word) {
            to->view.words[w] = word;
            from->view.words[w] = 0;
        }
    }
}

/* Room for one more behind those that a place has. */
static __attribute__((noinline)) void add_page(int l, int count) {
    int page = 0, before = orders.far[l];
    while (page < PAGES && orders.next[page])
        page++;
    if (page == PAGES)
        PAGES < MOST_PAGES ? orders_full_of_messages__use_a_greater_pool() : orders_full_of_messages__no_pool_has_more();
    orders.next[page] = LAST;
    if (!before)
        orders.far[l] = page + 1;
    else {
        for (count -= NEAR + PAGE; count; count -= PAGE)
            before = orders.next[before - 1];
        orders.next[before - 1] = page + 1;
    }
}

INLINE void add_room(int l, int count) {
    if (count >= NEAR && !((count - NEAR) % PAGE))
        add_page(l, count);
}

/* Pages behind so many messages are nobody's, once nothing is there. */
static __attribute__((noinline)) void give_pages(int l, int count) {
    int page = orders.far[l], keep = count > NEAR ? (count - NEAR + PAGE - 1) / PAGE : 0;
    if (!keep)
        orders.far[l] = 0;
    for (int i = 1; page && page != LAST; i++) {
        int next = orders.next[page - 1];
        if (i >= keep)
            orders.next[page - 1] = i == keep ? LAST : 0;
        page = next;
    }
}

static void set_count(int l, int had, int count) {
    orders.places[l] = (orders.places[l] & ~ALL_MESSAGES) | MESSAGES(count);
    if (had > NEAR && count < had)
        give_pages(l, count);
}

/* ---- What is done to all views ---- */

enum change { RAISE, LOWER, FORGET, PUT_IN, TAKE_OUT, SAME_AS_BEFORE }; /* a cell comes in at L, or goes */

/* By words. The cells of the word in front of the one that comes stay. */
INLINE u64 mask_below(int l) { return (1ull << CELL_BITS * (l % PER_WORD)) - 1; }

static void put_in_cell(view *v, int l) {
    u64 stay = mask_below(l), over = 0;
    for (int w = l / PER_WORD, end = words_used(); w < end; w++) {
        u64 had = v->words[w], now = (had & stay) | (had & ~stay) << CELL_BITS | over;
        if (had != now)
            v->words[w] = now;
        over = had >> (64 - CELL_BITS);
        stay = 0;
    }
}

static void take_out_cell(view *v, int l) {
    u64 stay = mask_below(l);
    int w = l / PER_WORD, end = words_used();
    for (u64 had = v->words[w]; w < end; w++) {
        u64 next = w + 1 < end ? v->words[w + 1] : 0, now = (had & stay) | (had >> CELL_BITS & ~stay) | next << (64 - CELL_BITS);
        if (had != now)
            v->words[w] = now;
        had = next;
        stay = 0;
    }
}

static __attribute__((noinline)) void change_far(view *v, int is_raise, int l, int n) {
    int p = far_position(v, l);
    if (is_raise ? p >= n : 1)
        set_position(v, l, is_raise ? p + 1 : p > n ? p - n : 0);
}

INLINE void change(view *v, enum change what, int l, int n) {
    if (what == PUT_IN || what == TAKE_OUT) {
        what == PUT_IN ? put_in_cell(v, l) : take_out_cell(v, l);
        return;
    }
    cell had = v->at[l];
    int p = had & 255;
    switch (what) {
    case RAISE: /* a message comes in at position N */
        if (p == LANE)
            change_far(v, 1, l, n);
        else if (p && p >= n)
            v->at[l] = had + 1;
        break;
    case LOWER: /* the N oldest ones go */
        if (p == LANE)
            change_far(v, 0, l, n);
        else if (p)
            v->at[l] = had - (p > n ? n : p);
        break;
    case FORGET: /* what the bits N of this cell say isn't so any more */
        if (had & n)
            v->at[l] = had & ~(cell)n;
        break;
    case SAME_AS_BEFORE: /* of the cell at L as much is known as of that N in front of it */
        put_cell(v, l, v->at[l - n]);
        break;
    default:
        break;
    }
}

INLINE void change_each(enum change what, int l, int n) {
    u32 head = own_head();
    u64 alive = having, counting = what != FORGET && head & HAS_COUNTS ? orders.counting : 0;
    for (int t = 0; alive >> t; t++)
        if (alive >> t & 1) {
            change(&orders.current[t], what, l, n);
            if (counting >> t & 1)
                change(&orders.reads[t], what, l, n);
            if (head & HAS_FENCES) {
                change(&orders.acquirable[t], what, l, n);
                change(&orders.released[t], what, l, n);
            }
#if ORDERS_C11_SEQUENCES
            for (int k = 0; k < (int)(head & HOW_MANY); k++)
                change(&orders.sequences[t][k], what, l, n);
#endif
        }
    for (int k = 0; k < (int)(head & HOW_MANY); k++)
        for (int m = COUNT(orders.places[k]); m--;)
            change(&message_at(k, m)->view, what, l, n);
    if (head & HAS_PSC)
        change(&orders.psc, what, l, n);
}

/* One function for each, so that none asks at each view what is done. */
static void raise_all(int l, int n) { change_each(RAISE, l, n); }
static void lower_all(int l, int n) { change_each(LOWER, l, n); }
static void forget_all(int l, cell bits) { change_each(FORGET, l, bits); }
static void put_in_all(int l) { change_each(PUT_IN, l, 0); }
static void take_out_all(int l) { change_each(TAKE_OUT, l, 0); }
static void same_all(int l, int n) { change_each(SAME_AS_BEFORE, l, n); }

/* ---- Places ---- */

/* The first place that ends behind this address. */
static int find(u32 at) {
    int low = 0, high = places();
    while (low < high) {
        int mid = (low + high) / 2;
        if (end_of(orders.places[mid]) > at)
            high = mid;
        else
            low = mid + 1;
    }
    return low;
}

static int cells_of(int l) {
    int many = 1;
    while (orders.places[l + many - 1] & MORE)
        many++;
    return many;
}

/* To where there is none, by words alone: what lies on a stack would be left there, and make more states. */
static void move_place(int from, int to) {
    u64 p = orders.places[from];
    u32 wrote = orders.wrote[from];
    orders.places[to] = p;
    if (wrote) {
        orders.wrote[to] = wrote;
        orders.wrote[from] = 0;
    }
    for (int m = 0; m < NEAR && m < COUNT(p); m++)
        move_message(&orders.near[to][m], &orders.near[from][m]);
    if (COUNT(p) > NEAR) {
        orders.far[to] = orders.far[from];
        orders.far[from] = 0;
    }
#if ORDERS_C11_SEQUENCES
    for (int t = 0; t < THREADS; t++) {
        copy(&orders.sequences[t][to], &orders.sequences[t][from]);
        clear(&orders.sequences[t][from]);
    }
#endif
}

/* A cell in front of those from L on. */
static void put_in(int l, u64 p) {
    int count = places();
    if (count == PLACES)
        PLACES < MOST_PLACES ? orders_full_of_places__use_a_greater_pool() : orders_full_of_places__no_pool_has_more();
    for (int k = count; k > l; k--)
        move_place(k - 1, k);
    orders.places[l] = p;
    put_head(own_head() + 1);
    if (l < count)
        put_in_all(l);
}

static void take_out(int l) {
    take_out_all(l);
    int last = places() - 1;
    for (int k = l; k < last; k++)
        move_place(k + 1, k);
    orders.places[last] = 0;
    put_head(own_head() - 1);
}

static void remove_place(int l) {
    u64 p = orders.places[l];
    for (int m = COUNT(p); m--;)
        clear_message(message_at(l, m));
    set_count(l, COUNT(p), 0);
    if (orders.wrote[l])
        orders.wrote[l] = 0;
    for (int many = cells_of(l); many--;)
        take_out(l + many);
}

/* As many cells as this one, which is number MANY of a place, says. */
static void add_cells(int l, int many) {
    for (int k = cells_of(l); k < many; k++) {
        u64 p = orders.places[l + k - 1];
        orders.places[l + k - 1] = p | MORE;
        put_in(l + k, a_place(AT(p), LOG(p)) | BEHIND);
    }
}

/* Cells that a place needs no more. */
static __attribute__((noinline)) void take_cells(int l) {
    for (int k = cells_of(l) - 1; k && COUNT(orders.places[l]) <= k * LANE + 1 && !(orders.places[l + k] & ALL_READERS); k--) {
        take_out(l + k);
        orders.places[l + k - 1] &= ~MORE;
    }
}

/* Whether all that there is to know of a place is in this view. */
static int is_known(const view *v, int l) {
    u64 p = orders.places[l], q = p;
    cell has = v->at[l], want = WRITE_KNOWN | (cell)((q & ALL_READERS) >> 36 << 9);
    if ((has & want) != want || (COUNT(p) && position(v, l) != COUNT(p) - 1))
        return 0;
    while (q & MORE) {
        q = orders.places[++l];
        want = (cell)((q & ALL_READERS) >> 36 << 9);
        if ((v->at[l] & want) != want)
            return 0;
    }
    return 1;
}

static int is_in(const view *a, const view *b) {
    for (int w = words_used(); w--;) {
        u64 word = a->words[w];
        if (word) {
            u64 other = b->words[w];
            if (join(word, other) != other)
                return 0;
        }
    }
    return 1;
}

/* Whether all threads know all of a place: then it's as one that nobody ever touched. */
static int is_known_to_all(int l) {
    int count = COUNT(orders.places[l]);
    u64 readers = looking;
    for (int t = 0; readers >> t; t++)
        if (readers >> t & 1 && (!is_known(&orders.current[t], l) ||
                                 (count && !is_in(&message_at(l, count - 1)->view, &orders.current[t]))))
            return 0;
    return 1;
}

static void remove_known(void) {
    for (int l = places(); l--;) {
        u64 p = orders.places[l];
        if (!(p & BEHIND) && COUNT(p) < 2 && is_known_to_all(l))
            remove_place(l);
    }
}

/* Who freed the block that has this address, in a row of such that begins at the first one. */
static u32 who_freed(u32 first, u32 at) {
    u32 size;
    while (size = ((u32 *)first)[-FRONT / 4], first + size <= at && size)
        first += size;
    return ((u32 *)first)[-1];
}

/* A place that nobody touched since threads run: what is there is known to all, or to who writes it now. */
static int new_place(u32 at, int log, int writer) {
    if (places() == PLACES)
        remove_known();
    for (int i = 0; i < FREED && orders.freed[i].size; i++)
        if (at - orders.freed[i].at < orders.freed[i].size)
            use_after_free(at, who_freed(orders.freed[i].at, at));
    int l = find(at);
    put_in(l, a_place(at, log));
    if (writer >= 0) {
        orders.wrote[l] = by_me();
        learn(&orders.current[writer], l, WRITE_KNOWN);
        return l;
    }
    u64 alive = having;
    for (int t = 0; alive >> t; t++)
        if (alive >> t & 1)
            learn(&orders.current[t], l, WRITE_KNOWN);
    return l;
}

/* Makes two places of one that is touched in part. */
static void split(int l) {
    u64 p = orders.places[l];
    int many = cells_of(l);
    mark(NEWS);
    if (COUNT(p))
        atomics_of_mixed_sizes(AT(p));
    for (int k = 0; k < many; k++)
        orders.places[l + k] -= 1ull << 32;
    for (int k = 0; k < many; k++) {
        put_in(l + many + k, orders.places[l + k] + (1u << (LOG(p) - 1)));
        same_all(l + many + k, many);
    }
    orders.wrote[l + many] = orders.wrote[l];
}

/* ---- Messages that nobody can read any more ---- */

static void drop(int l, int many) {
    int had = COUNT(orders.places[l]), count = had - many;
    for (int m = 0; m < many; m++)
        clear_message(message_at(l, m));
    for (int m = 0; m < count; m++)
        move_message(message_at(l, m), message_at(l, m + many));
    put(&message_at(l, 0)->about, 0);
    set_count(l, had, count);
    lower_all(l, many);
    if (has_psc() && is_clear(&orders.psc))
        put_head(own_head() & ~HAS_PSC);
    if (orders.places[l] & MORE)
        take_cells(l);
}

/* The oldest message that somebody may read. */
static int oldest_of(int l) {
    u64 readers = looking;
    int least = COUNT(orders.places[l]) - 1;
    for (int t = 0; readers >> t; t++)
        if (readers >> t & 1 && position(&orders.current[t], l) < least)
            least = position(&orders.current[t], l);
    return least;
}

/* From the last word on: what is taken out lies behind. */
static __attribute__((noinline)) void clean(void) {
    if (own_marks() & STILL)
        return;
    u64 readers = looking;
    for (int w = words_used(); w-- && readers;) {
        u64 least = ONES * LANE;
        for (int t = 0; readers >> t && least; t++)
            if (readers >> t & 1)
                least = lesser(least, orders.current[t].words[w] & POSITIONS);
        for (int k = PER_WORD; least && k--;) {
            int l = w * PER_WORD + k, many = least >> CELL_BITS * k & 255;
            if (!many || orders.places[l] & BEHIND)
                continue;
            if (many == LANE)
                many = oldest_of(l);
            if (many)
                drop(l, many);
        }
    }
}

static void end_operation(void) {
    clean();
    leave(me());
}
