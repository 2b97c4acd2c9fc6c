"""RC11 by its axioms (Lahav, Vafeiadis, Kang, Hur, Dreyer, PLDI 2017): which outcomes a litmus test may have.

A test is a list of threads; each thread a list of
    ('R', x, order)   ('W', x, value, order)   ('U', x, value, order) an exchange   ('A', x, order) a fetch_add of 1
    ('C', x, expected, value, order) a compare-exchange, strong   ('F', order) a fence
with the orders na rlx acq rel ar sc. An outcome is what all reads gave, in their order, and the last value of each place,
or `race`. All executions are enumerated, and those that the axioms refuse are left out: coherence, atomicity, SC, and no
cycle of sb and rf. `rs` says which release sequences there are: cxx20, or c11 with later stores of the same thread; `sc`
which SC axiom: rc11, or machine, which is rc11 with psc in the order of execution, as the runtime has it."""
import functools
import itertools

ACQ, REL = {'acq', 'ar', 'sc'}, {'rel', 'ar', 'sc'}


class Event:
    def __init__(self, thread, kind, place=None, order=None, value=None, instr=None, expected=None):
        self.thread, self.kind, self.place, self.order, self.value = thread, kind, place, order, value
        self.instr, self.expected = instr, expected


# ---- Relations: a list of bit sets, one per event ----

def compose(a, b):
    out = []
    for row in a:
        r, bits = 0, row
        while bits:
            low = bits & -bits
            r |= b[low.bit_length() - 1]
            bits ^= low
        out.append(r)
    return out

def union(*rs): return [functools.reduce(lambda x, y: x | y, rows) for rows in zip(*rs)]
def meet(a, b): return [x & y for x, y in zip(a, b)]
def ident(n, ok): return [1 << i if ok(i) else 0 for i in range(n)]
def inverse(a):
    out = [0] * len(a)
    for i, row in enumerate(a):
        for j in range(len(a)):
            if row >> j & 1:
                out[j] |= 1 << i
    return out
def closure(a):
    a = list(a)
    for k in range(len(a)):
        for i in range(len(a)):
            if a[i] >> k & 1:
                a[i] |= a[k]
    return a
def acyclic(a):
    c = closure(a)
    return all(not c[i] >> i & 1 for i in range(len(c)))
def optional(a, n): return [row | 1 << i for i, row in enumerate(a)]


def executions(test):
    """All (events, sb, rmw, rf, mo) with values, before the axioms: rf acyclic with sb is tested early."""
    places = places_of(test)
    inits = [Event(-1, 'W', p, 'na', 0) for p in places]
    # A compare-exchange is a read alone, or both: each way is a program of its own.
    ways = [[(False, True) if i[0] == 'C' else (None,) for i in t] for t in test]
    for way in itertools.product(*[itertools.product(*w) for w in ways]):
        events, rmw_pairs, sb_lists = list(inits), [], []
        for t, thread in enumerate(test):
            mine = []
            for k, i in enumerate(thread):
                def put(e):
                    events.append(e)
                    mine.append(len(events) - 1)
                    return len(events) - 1
                if i[0] == 'R': put(Event(t, 'R', i[1], i[2]))
                elif i[0] == 'W': put(Event(t, 'W', i[1], i[3], i[2]))
                elif i[0] == 'F': put(Event(t, 'F', None, i[1]))
                elif i[0] == 'C' and not way[t][k]:
                    put(Event(t, 'R', i[1], {'rel': 'rlx', 'ar': 'acq'}.get(i[4], i[4]), None, 'differs', i[2]))
                else:
                    order = i[-1]
                    r = put(Event(t, 'R', i[1], {'rel': 'rlx', 'ar': 'acq'}.get(order, order), None, i[0], i[2] if i[0] == 'C' else None))
                    w = put(Event(t, 'W', i[1], {'acq': 'rlx', 'ar': 'rel'}.get(order, order), None if i[0] == 'A' else i[3] if i[0] == 'C' else i[2], i[0]))
                    rmw_pairs.append((r, w))
            sb_lists.append(mine)
        n = len(events)
        sb = [0] * n
        for i in range(len(inits)):
            for j in range(len(inits), n):
                sb[i] |= 1 << j
        for mine in sb_lists:
            for a, b in itertools.combinations(mine, 2):
                sb[a] |= 1 << b
        reads = [i for i in range(n) if events[i].kind == 'R']
        writes = {p: [i for i in range(n) if events[i].kind == 'W' and events[i].place == p] for p in places}
        rmw = [0] * n
        for r, w in rmw_pairs:
            rmw[r] |= 1 << w
        partner = {w: r for r, w in rmw_pairs}
        for source in itertools.product(*[writes[events[r].place] for r in reads]):
            rf = [0] * n
            frm = dict(zip(reads, source))
            if any(partner.get(w) == r for r, w in frm.items()):
                continue
            for r, w in frm.items():
                rf[w] |= 1 << r
            if not acyclic(union(sb, rf)):
                continue
            def value(i):
                e = events[i]
                if e.kind == 'R':
                    return value(frm[i])
                return value(partner[i]) + 1 if e.instr == 'A' else e.value
            good = True
            for r in reads:
                e = events[r]
                if e.instr == 'differs' and value(r) == e.expected or e.instr == 'C' and value(r) != e.expected:
                    good = False
            if not good:
                continue
            for orders in itertools.product(*[itertools.permutations(writes[p][1:]) for p in places]):
                mo = [0] * n
                final = []
                for p, order in zip(places, orders):
                    line = [writes[p][0], *order]
                    final.append(value(line[-1]))
                    for a, b in itertools.combinations(line, 2):
                        mo[a] |= 1 << b
                yield events, sb, rmw, rf, mo, tuple(value(r) for r in reads), tuple(final)


def judge(events, sb, rmw, rf, mo, rs_way='cxx20', sc_way='rc11'):
    """None where the execution isn't consistent, else whether it races."""
    n = len(events)
    E = events
    rb = compose(inverse(rf), mo)
    eco = closure(union(rf, mo, rb))
    if not all(not (rmw[i] & compose(rb, mo)[i]) for i in range(n)):
        return None
    same = lambda i, j: E[i].place is not None and E[i].place == E[j].place
    loc = [sum(1 << j for j in range(n) if same(i, j)) for i in range(n)]
    W = ident(n, lambda i: E[i].kind == 'W')
    Wa = ident(n, lambda i: E[i].kind == 'W' and E[i].order != 'na')
    Ra = ident(n, lambda i: E[i].kind == 'R' and E[i].order != 'na')
    F = ident(n, lambda i: E[i].kind == 'F')
    rel = ident(n, lambda i: E[i].order in REL)
    acq = ident(n, lambda i: E[i].order in ACQ)
    chain = optional(closure(compose(rf, rmw)), n)
    rs = compose(W, compose(optional(meet(sb, loc), n) if rs_way == 'c11' else ident(n, lambda i: True), compose(Wa, chain)))
    front = compose(rel, optional(compose(F, sb), n))
    back = compose(optional(compose(sb, F), n), acq)
    sw = compose(front, compose(rs, compose(rf, compose(Ra, back))))
    hb = closure(union(sb, sw))
    if any(compose(hb, optional(eco, n))[i] >> i & 1 for i in range(n)):
        return None
    Esc = ident(n, lambda i: E[i].order == 'sc' and E[i].kind != 'F')
    Fsc = ident(n, lambda i: E[i].order == 'sc' and E[i].kind == 'F')
    hbq = optional(hb, n)
    left, right = union(Esc, compose(Fsc, hbq)), union(Esc, compose(hbq, Fsc))
    other = [sb[i] & ~loc[i] for i in range(n)]
    scb = union(sb, compose(other, compose(hb, other)), meet(hb, loc), mo, rb)
    base = compose(left, compose(scb, right))
    fences = compose(Fsc, compose(union(hb, compose(hb, compose(eco, hb))), Fsc))
    if not acyclic(union(base, fences)):
        return None
    # What orders.c does: one order of execution, in which psc points forward, as sb and rf do.
    if sc_way == 'machine' and not acyclic(union(base, fences, sb, rf)):
        return None
    for i in range(n):
        for j in range(i):
            if same(i, j) and 'W' in (E[i].kind, E[j].kind) and 'na' in (E[i].order, E[j].order) and E[i].thread >= 0 \
                    and E[j].thread >= 0 and E[i].thread != E[j].thread and not hb[i] >> j & 1 and not hb[j] >> i & 1:
                return True
    return False


def places_of(test): return sorted({i[1] for t in test for i in t if i[0] != 'F'})

def outcomes(test, rs='cxx20', sc='rc11'):
    """The outcomes, and 'race' among them where some consistent execution has one."""
    found = set()
    for events, sb, rmw, rf, mo, reads, final in executions(test):
        key = reads + final
        if key in found and 'race' in found:
            continue
        races = judge(events, sb, rmw, rf, mo, rs, sc)
        if races is None:
            continue
        found.add('race' if races else key)
    return found
