/* What the headers of libstdc++ leave to its compiled part: threads, conditions, clocks, what is thrown, and the links of
   lists and trees. The names are those that the compiler makes of `std::thread::join()` and the like, which traces have
   again; what isn't among them the linker refuses by its name. Constructors and destructors answer their object. */

/* ---- What is thrown elsewhere is a trap here, in a function of that name, behind a line that says what was wrong ---- */

#define THROWS(name, parameters, text) \
    _Noreturn void name parameters {   \
        __wathread_says(text);         \
        __builtin_trap();              \
    }
THROWS(_ZSt17__throw_bad_allocv, (void), "std::bad_alloc")
THROWS(_ZSt28__throw_bad_array_new_lengthv, (void), "std::bad_array_new_length")
THROWS(_ZSt16__throw_bad_castv, (void), "std::bad_cast")
THROWS(_ZSt21__throw_bad_exceptionv, (void), "std::bad_exception")
THROWS(_ZSt25__throw_bad_function_callv, (void), "std::bad_function_call")
THROWS(_ZSt19__throw_logic_errorPKc, (const char *what), what)
THROWS(_ZSt20__throw_domain_errorPKc, (const char *what), what)
THROWS(_ZSt24__throw_invalid_argumentPKc, (const char *what), what)
THROWS(_ZSt20__throw_length_errorPKc, (const char *what), what)
THROWS(_ZSt20__throw_out_of_rangePKc, (const char *what), what)
THROWS(_ZSt24__throw_out_of_range_fmtPKcz, (const char *what, ...), what)
THROWS(_ZSt21__throw_runtime_errorPKc, (const char *what), what)
THROWS(_ZSt19__throw_range_errorPKc, (const char *what), what)
THROWS(_ZSt22__throw_overflow_errorPKc, (const char *what), what)
THROWS(_ZSt23__throw_underflow_errorPKc, (const char *what), what)
THROWS(_ZSt20__throw_system_errori, (int number), strerror(number))
THROWS(_ZSt9terminatev, (void), "std::terminate")
THROWS(_ZSt21__glibcxx_assert_failPKciS0_S0_, (const char *file, int line, const char *function, const char *text),
       ((void)file, (void)line, (void)function, text))

/* ---- Exceptions: there is none. A promise that is left without a value would begin to make one by asking for its
   category ---- */

int _ZSt18uncaught_exceptionv(void) { return 0; }
int _ZSt19uncaught_exceptionsv(void) { return 0; }
void _ZNSt15__exception_ptr13exception_ptr9_M_addrefEv(void *none) { (void)none; }
void _ZNSt15__exception_ptr13exception_ptr10_M_releaseEv(void *none) { (void)none; }
THROWS(_ZSt17rethrow_exceptionNSt15__exception_ptr13exception_ptrE, (void *none), ((void)none, "std::rethrow_exception"))
THROWS(_ZSt20__throw_future_errori, (int number), ((void)number, "std::future_error"))
THROWS(_ZNSt13__future_base13_State_baseV211_Make_ready6_M_setEv, (void *end), ((void)end, "set_value_at_thread_exit"))
_Noreturn const void *_ZSt15future_categoryv(void) {
    __wathread_says("std::future_error: broken_promise");
    __builtin_trap();
}

void *const _ZTVSt12future_error[5];
void *_ZNSt12future_errorD1Ev(void *error) { return error; }
void *_ZNSt11logic_errorC2ERKNSt7__cxx1112basic_stringIcSt11char_traitsIcESaIcEEE(void *error, const void *text) {
    (void)text;
    return error;
}

/* What a future waits for begins with its functions, which who makes it puts there, and an exception. */
void *_ZNSt13__future_base12_Result_baseC2Ev(void **result) { result[1] = 0; return result; }
void *_ZNSt13__future_base12_Result_baseD2Ev(void **result) { return result; }

/* Who waits for it sleeps by a futex, until a time by one of the two clocks, and answers whether it came before. */
#define UNTIL(name)                                                                                                \
    _Bool name(void *unused, _Atomic int *word, int value, _Bool has_end, int64_t seconds, int64_t nanoseconds) {  \
        struct timespec end = {seconds, nanoseconds};                                                              \
        (void)unused;                                                                                              \
        return !sleep_while(word, value, has_end ? deadline_of(&end) : FOR_EVER);                                  \
    }
UNTIL(_ZNSt28__atomic_futex_unsigned_base19_M_futex_wait_untilEPjjbNSt6chrono8durationIxSt5ratioILx1ELx1EEEENS2_IxS3_ILx1ELx1000000000EEEE)
UNTIL(_ZNSt28__atomic_futex_unsigned_base26_M_futex_wait_until_steadyEPjjbNSt6chrono8durationIxSt5ratioILx1ELx1EEEENS2_IxS3_ILx1ELx1000000000EEEE)
void _ZNSt28__atomic_futex_unsigned_base19_M_futex_notify_allEPj(_Atomic int *word) { notify_all(word); }

/* ---- std::thread: what it runs is an object with a table of functions, two destructors and the run. The second
   destructor also frees it ---- */

enum { IS_GONE = 1, RUN = 2 };

void *_ZNSt6thread6_StateD2Ev(void *state) { return state; }
void *_ZNSt6thread6_StateD1Ev(void *state) { return state; }
void _ZNSt6thread6_StateD0Ev(void *state) { free(state); }
void *const _ZTVNSt6thread6_StateE[] = {0, 0, (void *)_ZNSt6thread6_StateD1Ev, (void *)_ZNSt6thread6_StateD0Ev,
                                        (void *)__cxa_pure_virtual};

static void call_state(void *state, int which) { ((void (*)(void *))(*(void ***)state)[which])(state); }

static void *run_state(void *state) {
    call_state(state, RUN);
    call_state(state, IS_GONE);
    return 0;
}

/* The state is in a std::unique_ptr, which is empty then. */
void _ZNSt6thread15_M_start_threadESt10unique_ptrINS_6_StateESt14default_deleteIS1_EEPFvvE(pthread_t *thread, void **state,
                                                                                          void (*unused)(void)) {
    (void)unused;
    int wrong = pthread_create(thread, 0, run_state, *state);
    if (wrong)
        _ZSt20__throw_system_errori(wrong);
    *state = 0;
}

void _ZNSt6thread4joinEv(pthread_t *thread) {
    int wrong = *thread ? pthread_join(*thread, 0) : EINVAL;
    if (wrong)
        _ZSt20__throw_system_errori(wrong);
    *thread = 0;
}

void _ZNSt6thread6detachEv(pthread_t *thread) {
    if (!*thread)
        _ZSt20__throw_system_errori(EINVAL);
    pthread_detach(*thread);
    *thread = 0;
}

unsigned _ZNSt6thread20hardware_concurrencyEv(void) { return __wathread_most(); }

/* ---- std::condition_variable ---- */

void *_ZNSt18condition_variableC1Ev(pthread_cond_t *c) {
    int wrong = pthread_cond_init(c, 0);
    if (wrong)
        _ZSt20__throw_system_errori(wrong);
    return c;
}

void *_ZNSt18condition_variableC2Ev(pthread_cond_t *c) { return _ZNSt18condition_variableC1Ev(c); }
void *_ZNSt18condition_variableD1Ev(pthread_cond_t *c) { pthread_cond_destroy(c); return c; }
void *_ZNSt18condition_variableD2Ev(pthread_cond_t *c) { pthread_cond_destroy(c); return c; }

/* A std::unique_lock begins with the address of its mutex. */
void _ZNSt18condition_variable4waitERSt11unique_lockISt5mutexE(pthread_cond_t *c, pthread_mutex_t **lock) {
    pthread_cond_wait(c, *lock);
}

void _ZNSt18condition_variable10notify_oneEv(pthread_cond_t *c) { pthread_cond_signal(c); }
void _ZNSt18condition_variable10notify_allEv(pthread_cond_t *c) { pthread_cond_broadcast(c); }

/* ---- std::call_once, by pthread_once ---- */

_Thread_local void *_ZSt15__once_callable;
_Thread_local void (*_ZSt11__once_call)(void);

void __once_proxy(void) { _ZSt11__once_call(); }

/* ---- Clocks, of which there is one ---- */

int64_t _ZNSt6chrono3_V212system_clock3nowEv(void) { return time_now(); }
int64_t _ZNSt6chrono3_V212steady_clock3nowEv(void) { return time_now(); }

/* ---- new that answers null ---- */

const char _ZSt7nothrow;
void *_ZnwmRKSt9nothrow_t(unsigned long n, const void *unused) { (void)unused; return malloc(n); }
void *_ZnamRKSt9nothrow_t(unsigned long n, const void *unused) { (void)unused; return malloc(n); }
void _ZdlPvRKSt9nothrow_t(void *block, const void *unused) { (void)unused; free(block); }
void _ZdaPvRKSt9nothrow_t(void *block, const void *unused) { (void)unused; free(block); }

/* ---- Hashes ---- */

unsigned long _ZSt11_Hash_bytesPKvmm(const void *from, unsigned long n, unsigned long seed) {
    const unsigned char *p = from;
    unsigned long hash = 2166136261 ^ seed;
    for (; n; n--)
        hash = (hash ^ *p++) * 16777619;
    return hash;
}

/* ---- std::make_shared knows its own blocks by this where there are no types at run time (-fno-rtti) ---- */

int _ZNSt19_Sp_make_shared_tag5_S_eqERKSt9type_info(const void *type) { (void)type; return 0; }

/* ---- std::list: a ring ---- */

struct item { struct item *next, *before; };

static void link_items(struct item *a, struct item *b) { a->next = b; b->before = a; }

void _ZNSt8__detail15_List_node_base7_M_hookEPS0_(struct item *item, struct item *place) {
    link_items(place->before, item);
    link_items(item, place);
}

void _ZNSt8__detail15_List_node_base9_M_unhookEv(struct item *item) { link_items(item->before, item->next); }

/* Moves what is from `first` on, without `end`, in front of a place. */
void _ZNSt8__detail15_List_node_base11_M_transferEPS0_S1_(struct item *place, struct item *first, struct item *end) {
    struct item *last = end->before;
    if (place == end || first == end)
        return;
    link_items(first->before, end);
    link_items(place->before, first);
    link_items(last, place);
}

void _ZNSt8__detail15_List_node_base10_M_reverseEv(struct item *ring) {
    struct item *item = ring;
    do {
        struct item *next = item->next;
        item->next = item->before;
        item->before = next;
        item = next;
    } while (item != ring);
}

void _ZNSt8__detail15_List_node_base4swapERS0_S1_(struct item *a, struct item *b) {
    struct item first = *a, second = *b;
    link_items(a, second.next == b ? a : second.next);
    link_items(second.next == b ? a : second.before, a);
    link_items(b, first.next == a ? b : first.next);
    link_items(first.next == a ? b : first.before, b);
}

/* ---- std::map and std::set: a tree of red and black nodes. The ring's node stands above the root: its sides are the
   first and the last node ---- */

enum { RED, BLACK };
enum { LEFT, RIGHT };
struct node { int color; struct node *up, *side[2]; };

/* The next node on a side. From the last one on it is the ring's. */
static struct node *next_node(struct node *node, int side) {
    if (side == LEFT && node->color == RED && node->up->up == node)
        return node->side[RIGHT]; /* the ring's: before the end comes the last one */
    if (node->side[side]) {
        for (node = node->side[side]; node->side[!side];)
            node = node->side[!side];
        return node;
    }
    struct node *up = node->up;
    for (; node == up->side[side]; up = up->up)
        node = up;
    return side == RIGHT && node->side[RIGHT] == up ? node : up; /* a root alone is the ring's last one */
}

struct node *_ZSt18_Rb_tree_incrementPSt18_Rb_tree_node_base(struct node *node) { return next_node(node, RIGHT); }
struct node *_ZSt18_Rb_tree_incrementPKSt18_Rb_tree_node_base(struct node *node) { return next_node(node, RIGHT); }
struct node *_ZSt18_Rb_tree_decrementPSt18_Rb_tree_node_base(struct node *node) { return next_node(node, LEFT); }
struct node *_ZSt18_Rb_tree_decrementPKSt18_Rb_tree_node_base(struct node *node) { return next_node(node, LEFT); }

static int side_of(const struct node *node) { return node == node->up->side[RIGHT]; }

/* Puts `below` to where `node` hangs. */
static void hang(struct node *node, struct node *below, struct node *ring) {
    if (ring->up == node)
        ring->up = below;
    else
        node->up->side[side_of(node)] = below;
    if (below)
        below->up = node->up;
}

/* Lets a node go down on a side, and the one below it on the other side up. */
static void turn(struct node *node, int side, struct node *ring) {
    struct node *rises = node->side[!side];
    node->side[!side] = rises->side[side];
    if (rises->side[side])
        rises->side[side]->up = node;
    hang(node, rises, ring);
    rises->side[side] = node;
    node->up = rises;
}

void _ZSt29_Rb_tree_insert_and_rebalancebPSt18_Rb_tree_node_baseS0_RS_(int left, struct node *node, struct node *up,
                                                                      struct node *ring) {
    *node = (struct node){RED, up, {0, 0}};
    if (up == ring) {
        ring->up = ring->side[LEFT] = ring->side[RIGHT] = node;
    } else {
        up->side[left ? LEFT : RIGHT] = node;
        if (ring->side[left ? LEFT : RIGHT] == up)
            ring->side[left ? LEFT : RIGHT] = node;
    }
    while (node != ring->up && node->up->color == RED) {
        int side = side_of(node->up);
        struct node *above = node->up->up, *other = above->side[!side];
        if (other && other->color == RED) {
            node->up->color = other->color = BLACK;
            above->color = RED;
            node = above;
            continue;
        }
        if (side_of(node) != side) {
            node = node->up;
            turn(node, side, ring);
        }
        node->up->color = BLACK;
        above->color = RED;
        turn(above, !side, ring);
    }
    ring->up->color = BLACK;
}

/* One black node is missing from below `up` on a side, where `node` hangs, which may be null. */
static void add_black(struct node *node, struct node *up, int side, struct node *ring) {
    while (node != ring->up && !(node && node->color == RED)) {
        struct node *other = up->side[!side];
        if (other->color == RED) {
            other->color = BLACK;
            up->color = RED;
            turn(up, side, ring);
            other = up->side[!side];
        }
        struct node *near = other->side[side], *far = other->side[!side];
        if (!(near && near->color == RED) && !(far && far->color == RED)) {
            other->color = RED;
            node = up, up = up->up;
            side = node != ring->up && side_of(node);
            continue;
        }
        if (!(far && far->color == RED)) {
            near->color = BLACK;
            other->color = RED;
            turn(other, !side, ring);
            far = other, other = near;
        }
        other->color = up->color;
        up->color = far->color = BLACK;
        turn(up, side, ring);
        return;
    }
    if (node)
        node->color = BLACK;
}

struct node *_ZSt28_Rb_tree_rebalance_for_erasePSt18_Rb_tree_node_baseRS_(struct node *node, struct node *ring) {
    for (int side = LEFT; side <= RIGHT; side++)
        if (ring->side[side] == node)
            ring->side[side] = next_node(node, !side);
    struct node *below, *up = node->up;
    int side = node != ring->up && side_of(node), color = node->color;
    if (node->side[LEFT] && node->side[RIGHT]) { /* the next one comes to its place */
        struct node *next = next_node(node, RIGHT);
        color = next->color;
        below = next->side[RIGHT];
        side = next->up == node ? RIGHT : LEFT;
        up = next->up == node ? next : next->up;
        hang(next, below, ring);
        hang(node, next, ring);
        next->color = node->color;
        for (int i = LEFT; i <= RIGHT; i++)
            if ((next->side[i] = node->side[i]))
                next->side[i]->up = next;
    } else {
        below = node->side[LEFT] ? node->side[LEFT] : node->side[RIGHT];
        hang(node, below, ring);
    }
    if (color == BLACK && ring->up)
        add_black(below, up, side, ring);
    return node;
}
