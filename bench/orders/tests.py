"""Litmus tests: the classic ones in variants, and random ones. What a test is: axioms.py."""

STORES, LOADS = ['rlx', 'rel', 'sc'], ['rlx', 'acq', 'sc']
FENCES = ['acq', 'rel', 'ar', 'sc']
STRONGEST = [('rlx', 'rlx'), ('rel', 'acq'), ('sc', 'sc')]
ALL = [(store, load) for store in STORES for load in LOADS]


def R(place, order):
    return 'R', place, order


def W(place, value, order):
    return 'W', place, value, order


def U(place, value, order):
    return 'U', place, value, order


def A(place, order):
    return 'A', place, order


def C(place, expected, value, order):
    return 'C', place, expected, value, order


def F(order):
    return 'F', order


# By names: a test of a store's order, a load's, and the fences between two accesses of a thread.
SHAPES = {
    'SB': lambda w, r, f: [[W('x', 1, w), *f, R('y', r)], [W('y', 1, w), *f, R('x', r)]],
    'MP': lambda w, r, f: [[W('x', 1, 'rlx'), *f, W('y', 1, w)], [R('y', r), *f, R('x', 'rlx')]],
    'LB': lambda w, r, f: [[R('x', r), *f, W('y', 1, w)], [R('y', r), *f, W('x', 1, w)]],
    'R': lambda w, r, f: [[W('x', 1, w), *f, W('y', 1, w)], [W('y', 2, w), *f, R('x', r)]],
    'S': lambda w, r, f: [[W('x', 2, w), *f, W('y', 1, w)], [R('y', r), *f, W('x', 1, w)]],
    '2+2W': lambda w, r, f: [[W('x', 1, w), *f, W('y', 2, w)], [W('y', 1, w), *f, W('x', 2, w)]],
    'CoRR': lambda w, r, f: [[W('x', 1, w)], [R('x', r), R('x', r)]],
    'CoWR': lambda w, r, f: [[W('x', 1, w), R('x', r)], [W('x', 2, w)]],
    'CoRW': lambda w, r, f: [[R('x', r), W('x', 1, w)], [W('x', 2, w)]],
    'CoWW': lambda w, r, f: [[W('x', 1, w), W('x', 2, w)], [R('x', r)]],
    'WRC': lambda w, r, f: [[W('x', 1, 'rlx')], [R('x', r), *f, W('y', 1, w)], [R('y', r), *f, R('x', 'rlx')]],
    'ISA2': lambda w, r, f: [[W('x', 1, 'rlx'), W('y', 1, w)], [R('y', r), W('z', 1, w)], [R('z', r), R('x', 'rlx')]],
    'RWC': lambda w, r, f: [[W('x', 1, w)], [R('x', r), *f, R('y', r)], [W('y', 1, w), *f, R('x', r)]],
    'Z6': lambda w, r, f: [[W('x', 1, w), *f, W('y', 1, w)], [W('y', 2, w), *f, W('z', 1, w)], [R('z', r), *f, R('x', r)]],
    'IRIW': lambda w, r, f: [[W('x', 1, w)], [R('x', r), *f, R('y', r)], [R('y', r), *f, R('x', r)], [W('y', 1, w)]],
}
# Which orders each shape is tried with, and which fences where all else is relaxed.
TRIED = {
    'SB': (ALL, FENCES), 'MP': (ALL, FENCES), 'LB': (ALL, FENCES), 'R': (ALL, ['ar', 'sc']), 'S': (ALL, ['rel', 'ar', 'sc']),
    '2+2W': ([(w, w) for w in STORES], ['rel', 'ar', 'sc']), 'CoRR': (ALL, []), 'CoWR': (ALL, []), 'CoRW': (ALL, []),
    'CoWW': (ALL, []), 'WRC': (ALL, ['ar', 'sc']), 'ISA2': (ALL, []), 'RWC': (ALL, ['sc']), 'Z6': (STRONGEST, ['sc']),
    'IRIW': (STRONGEST + [('sc', 'acq')], ['sc']),
}
SINGLE = {
    'SB+fsc+none': [[W('x', 1, 'rlx'), F('sc'), R('y', 'rlx')], [W('y', 1, 'rlx'), R('x', 'rlx')]],
    'SB+fsc+sc': [[W('x', 1, 'rlx'), F('sc'), R('y', 'rlx')], [W('y', 1, 'sc'), R('x', 'sc')]],
    'SB+rmw': [[U('x', 1, 'ar'), R('y', 'acq')], [U('y', 1, 'ar'), R('x', 'acq')]],
    'SB+rmwsc': [[U('x', 1, 'sc'), R('y', 'sc')], [U('y', 1, 'sc'), R('x', 'sc')]],
    'MP+frel+facq': [[W('x', 1, 'rlx'), F('rel'), W('y', 1, 'rlx')], [R('y', 'rlx'), F('acq'), R('x', 'rlx')]],
    'MP+frel+acq': [[W('x', 1, 'rlx'), F('rel'), W('y', 1, 'rlx')], [R('y', 'acq'), R('x', 'rlx')]],
    'MP+rel+facq': [[W('x', 1, 'rlx'), W('y', 1, 'rel')], [R('y', 'rlx'), F('acq'), R('x', 'rlx')]],
    'MP+na+rel+acq': [[W('x', 1, 'na'), W('y', 1, 'rel')], [R('y', 'acq')]],
    'MP+na+race': [[W('x', 1, 'na'), W('y', 1, 'rel')], [R('y', 'acq'), R('x', 'na')]],
    'MP+rs+rmw': [[W('x', 1, 'rlx'), W('y', 1, 'rel')], [A('y', 'rlx')], [R('y', 'acq'), R('x', 'rlx')]],
    'MP+rs+store': [[W('x', 1, 'rlx'), W('y', 1, 'rel'), W('y', 2, 'rlx')], [R('y', 'acq'), R('x', 'rlx')]],
    'MP+rs+frel+rmw': [[W('x', 1, 'rlx'), F('rel'), W('y', 1, 'rlx')], [A('y', 'rlx')], [R('y', 'acq'), R('x', 'rlx')]],
    'CoRR2+rlx': [[W('x', 1, 'rlx')], [W('x', 2, 'rlx')], [R('x', 'rlx'), R('x', 'rlx')], [R('x', 'rlx'), R('x', 'rlx')]],
    'CoRR3+rlx': [[W('x', 1, 'rlx')], [R('x', 'rlx'), R('x', 'rlx'), R('x', 'rlx')]],
    'WRC+all+rel+acq': [[W('x', 1, 'rel')], [R('x', 'acq'), W('y', 1, 'rel')], [R('y', 'acq'), R('x', 'rlx')]],
    # Lahav and others, 2017, 1.1
    'Z6+sc+rel+rlx': [[W('x', 1, 'sc'), W('y', 1, 'rel')], [A('y', 'sc'), R('y', 'rlx')], [W('y', 3, 'sc'), R('x', 'sc')]],
    'W+RWC+mix': [[W('x', 1, 'rlx'), W('y', 1, 'rel')], [R('y', 'acq'), F('sc'), R('z', 'rlx')],
                  [W('z', 1, 'rlx'), F('sc'), R('x', 'rlx')]],
    '2RMW': [[A('x', 'rlx')], [A('x', 'rlx')], [R('x', 'rlx')]],
    'RMW+store': [[A('x', 'rlx')], [W('x', 5, 'rlx')], [A('x', 'rlx')]],
    # The store may come before the exchange, or behind it, and not in between: it comes late, and hasn't seen the exchange.
    'RMW+late': [[A('x', 'rlx')], [R('y', 'rlx'), W('x', 5, 'rlx')]],
    'CAS': [[C('x', 0, 1, 'ar'), R('y', 'rlx')], [W('y', 1, 'rlx'), C('x', 0, 2, 'ar')]],
    'CAS+fail': [[W('y', 1, 'rlx'), C('x', 0, 1, 'rel')], [C('x', 0, 2, 'acq'), R('y', 'rlx')]],
    # What is made later against modification order
    'mix+sc+rlx': [[W('x', 1, 'sc'), W('y', 1, 'rlx')], [R('y', 'rlx'), W('x', 2, 'sc')]],
    'mix2+sc+rlx': [[R('y', 'rlx'), W('x', 1, 'sc')], [W('x', 2, 'sc'), W('y', 1, 'rlx'), R('x', 'sc')]],
    'mix3+sc': [[W('x', 1, 'rlx')], [R('x', 'sc'), R('y', 'sc')], [W('y', 1, 'sc'), R('x', 'sc')]],
}
# What the literature says of the outcome that a shape is known by: what the loads read, in their order, and the last values
# of the places where only those tell. Batty and others, POPL 2011; Lahav and others, PLDI 2017.
KNOWN = {
    'SB+rlx+rlx': ((0, 0), True), 'SB+rel+acq': ((0, 0), True), 'SB+sc+sc': ((0, 0), False), 'SB+fsc': ((0, 0), False),
    'SB+far': ((0, 0), True), 'SB+sc+acq': ((0, 0), True), 'MP+rlx+rlx': ((1, 0), True), 'MP+rel+acq': ((1, 0), False),
    'MP+rel+rlx': ((1, 0), True), 'MP+rlx+acq': ((1, 0), True), 'MP+far': ((1, 0), False), 'MP+frel': ((1, 0), True),
    'MP+frel+facq': ((1, 0), False), 'MP+rs+rmw': ((1, 2, 0), False), 'LB+rlx+rlx': ((1, 1), False),
    'WRC+rel+acq': ((1, 1, 0), False), 'WRC+rlx+rlx': ((1, 1, 0), True), 'ISA2+rel+acq': ((1, 1, 0), False),
    'ISA2+rlx+rlx': ((1, 1, 0), True), 'IRIW+rel+acq': ((1, 0, 1, 0), True), 'IRIW+sc+sc': ((1, 0, 1, 0), False),
    'IRIW+fsc': ((1, 0, 1, 0), False), 'RWC+sc+sc': ((1, 0, 0), False), 'RWC+fsc': ((1, 0, 0), False),
    'RWC+rel+acq': ((1, 0, 0), True), 'CoRR+rlx+rlx': ((1, 0), False), '2+2W+rlx+rlx': ((1, 1), True),
    '2+2W+rel+rel': ((1, 1), True), '2+2W+sc+sc': ((1, 1), False), '2+2W+fsc': ((1, 1), False),
    'W+RWC+mix': ((1, 0, 0), False), 'Z6+sc+rel+rlx': ((1, 3, 0), True),
}


def classic():
    out = {}
    for name, shape in SHAPES.items():
        orders, fences = TRIED[name]
        out.update({f'{name}+{w}+{r}': shape(w, r, []) for w, r in orders})
        out.update({f'{name}+f{f}': shape('rlx', 'rlx', [F(f)]) for f in fences})
    return out | SINGLE


def random_access(rng, place, is_plain, value):
    """An access of a place; a store's value, or a compare-exchange's new one, is VALUE."""
    orders = ['rlx', 'acq', 'rel', 'ar', 'sc']
    kind = rng.choice('RRRWWW' if is_plain else 'RRRWWWUAC')
    return {'R': lambda: R(place, 'na' if is_plain else rng.choice(LOADS)),
            'W': lambda: W(place, value, 'na' if is_plain else rng.choice(STORES)),
            'U': lambda: U(place, value, rng.choice(orders)), 'A': lambda: A(place, rng.choice(orders)),
            'C': lambda: C(place, rng.choice([0, 0, *range(1, value)]), value, rng.choice(orders))}[kind]()


def random_test(rng):
    """Two or three threads of few accesses and fences; in one of five tests a place is plain."""
    threads = rng.choice([2, 2, 3])
    places = ['x', 'y', 'z'][:rng.choice([2, 2, 3])]
    plain = rng.choice(places) if rng.random() < 0.2 else ''
    test, value = [], 0
    for _ in range(threads):
        thread = []
        for _ in range(rng.choice([2, 3, 3] if threads == 2 else [1, 2, 2])):
            place = rng.choice(places)
            value += 1
            thread.append(random_access(rng, place, place == plain, value))
            if rng.random() < 0.15:
                thread.append(F(rng.choice(FENCES)))
        test.append(thread)
    return test
