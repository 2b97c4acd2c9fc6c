#!/usr/bin/env python3
"""compare.py [--runs N | --all STATES] [--random N] [--seed S] [--jobs J] [NAME ..]: litmus tests by RC11's axioms beside
wathread: the classic ones, or those that are named, or N drawn ones, `randomS.1` and so on.

The tests go into modules of `wathread-cc --orders c11`, each a function of its own, whose last thread is thread 0. A line
for each: how many outcomes the axioms allow and how many wathread finds, by --all or by drawn runs; then the outcomes that
are in one of both alone. Where --all meets more than STATES states it says `not all`; of drawn tests others take the place
of these, so that N are compared. J tests are looked at at a time. `c NAME` prints the C of a test, `axioms NAME` its
outcomes, `known` compares the axioms with what the literature says of the classic ones. The status is 1 where wathread
finds what the axioms forbid, or where --all doesn't find what they allow and DIFFER below doesn't name it. FLAGS in the
environment go to wathread-cc."""
import argparse
import itertools
import os
import random
import re
import subprocess
import sys
import tempfile
from collections import Counter
from concurrent.futures import ThreadPoolExecutor
from axioms import outcomes, places_of
from tests import KNOWN, classic, random_test

HERE = os.path.dirname(os.path.abspath(__file__))
ROOT = os.path.dirname(os.path.dirname(HERE))
NAMES = {'rlx': 'relaxed', 'acq': 'acquire', 'rel': 'release', 'ar': 'acq_rel', 'sc': 'seq_cst'}
FAILING = {'rel': 'rlx', 'ar': 'acq'}
# Where the runtime allows less than RC11: docs/ORDERS.md.
DIFFER = {'S+sc+rlx', 'Z6+sc+rel+rlx', 'mix+sc+rlx', 'mix2+sc+rlx', 'random1.57', 'random1.88'}


def order(short):
    return 'memory_order_' + NAMES[short]


def statement(i, result):
    """An instruction of a test in C; RESULT is the variable of what it reads."""
    kind, x = i[0], i[1]
    if kind == 'F':
        return f'atomic_thread_fence({order(x)});'
    if kind == 'W':
        return f'{x} = {i[2]};' if i[3] == 'na' else f'atomic_store_explicit(&{x}, {i[2]}, {order(i[3])});'
    if kind == 'R':
        return f'{result} = {x};' if i[2] == 'na' else f'{result} = atomic_load_explicit(&{x}, {order(i[2])});'
    if kind == 'U':
        return f'{result} = atomic_exchange_explicit(&{x}, {i[2]}, {order(i[3])});'
    if kind == 'A':
        return f'{result} = atomic_fetch_add_explicit(&{x}, 1, {order(i[2])});'
    failing = FAILING.get(i[4], i[4])
    return (f'{{ int e = {i[2]}; atomic_compare_exchange_strong_explicit(&{x}, &e, {i[3]}, {order(i[4])}, '
            f'{order(failing)}); {result} = e; }}')


def renamed(test, front):
    return [[i if i[0] == 'F' else (i[0], front + i[1], *i[2:]) for i in thread] for thread in test]


def to_c(test, name):
    """The C of a test: a function that gives all reads and the last values, each a digit of base 8."""
    test = renamed(test, name + '_')
    plain = {i[1] for t in test for i in t if i[0] != 'F' and i[-1] == 'na'}
    out = [f'static {"int" if p in plain else "_Atomic int"} {p};' for p in places_of(test)]
    results = []
    for t, thread in enumerate(test):
        body = []
        for i in thread:
            result = f'{name}_r{len(results)}' if i[0] not in 'FW' else ''
            results += [result] if result else []
            body.append('    ' + statement(i, result))
        out += [f'static void *{name}_{t}(void *none) {{', *body, '    return none;', '}']
    if results:
        out.insert(0, f'static int {", ".join(results)};')
    last = [p if p in plain else f'atomic_load_explicit(&{p}, memory_order_relaxed)' for p in places_of(test)]
    value = digits_of(results + last)
    started = range(len(test) - 1)
    out += [f'EXPORT("{name}") int {name}(void) {{', f'    pthread_t p[{len(test)}];',
            *[f'    pthread_create(&p[{t}], 0, {name}_{t}, 0);' for t in started], f'    {name}_{len(test) - 1}(0);',
            *[f'    pthread_join(p[{t}], 0);' for t in started], f'    return {value};', '}']
    return '\n'.join(out) + '\n'


def digits_of(terms):
    value = '0'
    for term in terms:
        value = f'({value}) * 8 + {term}'
    return value


def digits(value, many):
    return tuple(value >> 3 * (many - 1 - k) & 7 for k in range(many))


def build(tests, folder):
    """A module of some tests: the function of test I is `tI`."""
    path = folder + '/tests.c'
    with open(path, 'w') as file:
        file.write('#include <pthread.h>\n#include <stdatomic.h>\n#include <wathread.h>\n')
        for number, test in enumerate(tests.values()):
            file.write(to_c(test, f't{number}'))
    wasm = folder + '/tests.wasm'
    flags = os.environ.get('FLAGS', '').split()
    subprocess.run([ROOT + '/c/wathread-cc', '--orders', 'c11', '--threads', '5', '--pool', '64', '-g0', *flags, path,
                    '-o', wasm], check=True)
    return wasm


def found_by_wathread(wasm, name, test, how):
    """What wathread finds, how many states, and whether these are all outcomes."""
    words = [os.environ.get('WATHREAD', ROOT + '/wathread'), 'search', wasm, '--invoke', name, '--jobs', '1', '--no-explain',
             '--limit', '40000', *how]
    text = subprocess.run(words, capture_output=True, text=True).stdout
    many = sum(i[0] not in 'WF' for t in test for i in t) + len(places_of(test))
    found = {digits(int(v), many) for v in re.findall(r'thread 0: ok i32:(\d+)', text)}
    if 'trap' in text or re.search(r'(?m)^race: ', text):
        found.add('race')
    whole = re.search(r'(?m)^all: .*?(\d+) states', text)
    odd = [line for line in text.split('\n') if 'stop' in line and 'trap' not in line]
    return found, whole and whole.group(1), odd


def compare(wasm, number, name, test, how):
    """What is said of a test, and the line that is printed."""
    want = outcomes(test)
    found, states, odd = found_by_wathread(wasm, f't{number}', test, how)
    extra, missing = found - want, want - found
    if 'race' in want & found:
        extra = missing = set()
    if '--all' in how and not states and 'race' not in found:
        word = 'not all'
    else:
        word = 'WEAKER' if extra else 'stronger' if missing else 'same'
    line = f'{name:20} axioms {len(want):3}  found {len(found):3}  states {states or "-":>7}  {word}'
    for title, some in ('extra', extra), ('missing', missing):
        if some:
            line += f'  {title} {" ".join(sorted(map(str, some))[:4])}'
    return word, line + (f'  {odd[0]}' if odd else '')


def compare_all(tests, how, jobs):
    """Of each test what is said of it, in a line that is printed too."""
    words = {}
    with tempfile.TemporaryDirectory() as folder, ThreadPoolExecutor(jobs) as pool:
        wasm = build(tests, folder)
        found = pool.map(lambda item: compare(wasm, item[0], *item[1], how), enumerate(tests.items()))
        for name, (word, line) in zip(tests, found):
            print(line, flush=True)
            words[name] = word
    return words


def drawn(seed):
    """Tests that are drawn, without an end, in batches."""
    rng, number = random.Random(seed), itertools.count(1)
    while True:
        batch = {}
        while len(batch) < 25:
            test = random_test(rng)
            if len(places_of(test)) > 1:
                batch[f'random{seed}.{next(number)}'] = test
        yield batch


def known(tests):
    """Whether the axioms say of the outcome that each shape is known by what the literature says."""
    wrong = 0
    for name, (outcome, allowed) in KNOWN.items():
        is_allowed = any(found[:len(outcome)] == outcome for found in outcomes(tests[name]))
        if is_allowed != allowed:
            wrong += 1
            print(f'{name:20} {outcome} is {"allowed" if is_allowed else "forbidden"} by the axioms')
    print(f'{len(KNOWN)} verdicts, {wrong} differ')
    return wrong != 0


def compare_drawn(many, seed, how, jobs):
    """The same of so many drawn tests, beside those that have too many states."""
    words = {}
    for batch in drawn(seed):
        missing = many - sum(word != 'not all' for word in words.values())
        if missing <= 0:
            return words
        words |= compare_all(dict(itertools.islice(batch.items(), missing)), how, jobs)


def named(name, tests):
    """A test by its name, a drawn one too."""
    found = re.fullmatch(r'random(\d+)\.(\d+)', name)
    if not found:
        return tests[name]
    return next(batch[name] for batch in drawn(int(found[1])) if name in batch)


def main():
    parser = argparse.ArgumentParser()
    for name, default in ('--runs', 0), ('--all', 60000), ('--random', 0), ('--seed', 1), ('--jobs', 1):
        parser.add_argument(name, type=int, default=default)
    parser.add_argument('names', nargs='*')
    options = parser.parse_args()
    tests, names = classic(), options.names
    if names == ['known']:
        return known(tests)
    if names and names[0] in ('c', 'axioms'):
        test = named(names[1], tests)
        print(to_c(test, 't') if names[0] == 'c' else '\n'.join(map(str, outcomes(test))))
        return 0
    how = ['--runs', str(options.runs)] if options.runs else ['--all', '--states', str(options.all)]
    words = compare_drawn(options.random, options.seed, how, options.jobs) if options.random else \
        compare_all({name: named(name, tests) for name in names} if names else tests, how, options.jobs)
    print(', '.join(f'{many} {word}' for word, many in Counter(words.values()).items()))
    stronger = {name for name, word in words.items() if word == 'stronger'}
    return 1 if 'WEAKER' in words.values() or stronger - DIFFER and not options.runs else 0


sys.exit(main())
