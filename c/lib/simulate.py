"""Edits the LLVM text of a source for `--orders c11`: each access of what other threads may see becomes a call of the
runtime (orders.c), or has one in front of it.

- An atomic access, a fence, a wait and a notify are calls in its place, with the address as a number, and the order.
- A plain access is told: its address and its size. It stays what it is.
- Both have a further argument, where they are in the source (sites.py).
- In front of a trap that the source asks for the runtime is told that the thread has ended.

This is done before anything is made better of the source, so nothing that LLVM makes of atomics is in the module. What is
left out is what no other thread can see: local variables whose address goes nowhere, and thread-local ones likewise.
"""
import re

from blocks import DEBUG, NAME, callee, end_of_type, split

ORDERS = {'unordered': 0, 'monotonic': 0, 'acquire': 2, 'release': 3, 'acq_rel': 4, 'seq_cst': 5}
KINDS = {word: number for number, word in enumerate(['xchg', 'add', 'sub', 'and', 'or', 'xor', 'nand', 'max', 'min', 'umax',
                                                     'umin'])}  # as in orders.c
BITS = {'i8': 8, 'i16': 16, 'i32': 32, 'i64': 64}
LOAD = re.compile(rf'  (%{NAME}) = load (atomic )?(?:volatile )?(.*?)(?:, align (\d+).*)?(?:, !.*)?$')
STORE = re.compile(r'  store (atomic )?(?:volatile )?(.*?)(?:, align (\d+).*)?(?:, !.*)?$')
EXCHANGE = re.compile(rf'  (%{NAME}) = cmpxchg (weak )?(?:volatile )?(.*)')
CHANGE = re.compile(rf'  (%{NAME}) = atomicrmw (?:volatile )?(\w+) (.*)')
FENCE = re.compile(r'  fence (syncscope\("singlethread"\) )?(\w+)')
WAIT = re.compile(rf'  (?:%{NAME} = )?(?:tail |notail )?call i32 @llvm\.wasm\.memory\.atomic\.(wait32|wait64|notify)\((.*)\)'
                  r'(?: #\d+)?(?:, !.*)?$')
BYTES = re.compile(rf'  (?:tail )?(?:call void|%{NAME} = (?:tail )?call .*?) @(?:llvm\.)?(memcpy|memmove|memset)'
                   r'(?:\.inline)?(?:\.[pi]\w+)*\((.*)\)(?: #\d+)?(?:, !.*)?$')
TRAP = re.compile(r'  (?:tail )?call void @llvm\.(?:trap|ubsantrap)\(')
# Functions of the library that touch what they are given: what they do is said to be where they are called.
CALLED = re.compile(r'(?:free|realloc|qsort|bsearch|(?:mem|str)\w+|v?f?d?s?n?printf|puts|fputs|fwrite|write|'
                    r'(?:pthread_(?:mutex|rwlock|spin|cond|barrier)|mtx|cnd|sem)_\w+)$')
SCOPE = re.compile(r' syncscope\("[^"]*"\)')
ATTRIBUTES = re.compile(r'^(?:(?:align \d+|\w+\([^()]*\)|noundef|nonnull|noalias|readonly|writeonly|nocapture) )*')
WEAKER = re.compile(r'  (?:%[^ ]+ = )?(?:(?:load|store) atomic|cmpxchg|atomicrmw|fence (?!syncscope)).*?'
                    r' (?:monotonic|acquire|release|acq_rel)\b')
RUNTIME = {'load': 'i{0} (i32, i32, i32)', 'store': 'void (i32, i{0}, i32, i32)', 'change': 'i{0} (i32, i32, i{0}, i32, i32)',
           'compare': 'i{0} (i32, i{0}, i{0}, i32, i32, i32, i32)'}
OTHERS = {'failed': 'i32 ()', 'fence': 'void (i32, i32)', 'reads': 'void (i32, i32, i32)', 'writes': 'void (i32, i32, i32)',
          'at': 'void (i32)', 'traps': 'void ()', 'wait32': 'i32 (i32, i32, i64)', 'wait64': 'i32 (i32, i64, i64)',
          'notify': 'i32 (i32, i32)'}
# A section of objects and modules that are made so: wathread-link tells them from others.
MARK = 'wathread.orders'


DERIVED = re.compile(rf'  (%{NAME}) = (?:getelementptr|bitcast) ')
THREADS_OWN = re.compile(rf'  (%{NAME}) = .*@llvm\.threadlocal\.address\.')
VALUE = re.compile(rf'[%@]{NAME}')
NO_USE = re.compile(r'  (?:tail )?call void @llvm\.(?:lifetime|dbg|memcpy|memmove|memset)\b|    #dbg_')
THREAD_LOCAL = re.compile(rf'(@{NAME}) = .*?\bthread_local\b')


def roots_of(body, threads):
    """What each pointer of a function points into, of its own variables and of the thread-local ones, and which of these
    have an address that goes somewhere else."""
    roots, lost = {name: name for name in threads}, set()
    for line in body:
        code = line.split(', !')[0]
        names, store = VALUE.findall(code), STORE.match(line)
        if ' = alloca ' in line:
            roots[names[0]] = names[0]
        elif DERIVED.match(line) or THREADS_OWN.match(line):
            roots.update({names[0]: roots[name] for name in names[1:2] if name in roots} or
                         {names[0]: roots[name] for name in names[1:] if name in roots})
        elif store:
            lost.update(roots[name] for name in VALUE.findall(split(store.group(2))[0]) if name in roots)
        elif not LOAD.match(line) and not NO_USE.match(line):
            lost.update(roots[name] for name in names if name in roots)
    return roots, lost


class Hidden:
    """What of a text no other thread can see: constants, and thread-local variables whose address goes nowhere."""

    def __init__(self, lines, bodies, constants):
        self.threads = {found.group(1) for line in lines if (found := THREAD_LOCAL.match(line))}
        self.constants, self.lost = constants - self.threads, set()
        for body in bodies if self.threads else []:
            self.lost |= roots_of(body, self.threads)[1]

    def shared_in(self, body):
        """A function that says of an operand of this function whether others may see what it points to."""
        roots, lost = roots_of(body, self.threads)
        lost |= self.lost

        def shared(operand):
            names = [name for name in VALUE.findall(operand) if name in roots or name[0] == '@']
            if not names:
                return True
            return not all(name in self.constants or roots.get(name, name) not in lost and name in roots for name in names)
        return shared


def size_of(kind, pointer):
    """How many bytes a type has, as a number or a constant of LLVM; `pointer` is the type of its addresses."""
    if kind in BITS or kind == 'i1':
        return str(BITS.get(kind, 8) // 8)
    if kind == 'ptr' or kind.endswith('*'):
        return '4'
    return f'ptrtoint ({pointer} getelementptr ({kind}, {pointer} null, i32 1) to i32)'


class Simulation:
    """What is done to the accesses of one function. `shared` says of an operand whether others may see what it points
    to; `is_as_it_is` where only waits and traps are told, as in parts of the library; `sites` are those of the text."""

    def __init__(self, shared, is_as_it_is, sites):
        self.shared, self.is_as_it_is, self.sites, self.number = shared, is_as_it_is, sites, 0

    def mark(self):
        self.number += 1
        return f'%wathread.at.{self.number}'

    def number_of(self, operand, debug):
        """A line that makes a number of an address, and that number."""
        mark = self.mark()
        return f'  {mark} = ptrtoint {operand} to i32{debug}', mark

    def told(self, what, operand, size, debug):
        """The lines in front of a plain access."""
        line, at = self.number_of(operand, debug)
        return [line, f'  call void @__wathread_{what}(i32 {at}, i32 {size}, {self.sites.at(operand, debug)}){debug}']

    def lines(self, line):
        """A line as it is edited."""
        debug = ''.join(DEBUG.findall(line)[-1:])
        found = WAIT.match(line)
        if found:
            return self.wait(line, *found.groups(), debug)
        if TRAP.match(line):
            return [f'  call void @__wathread_traps(){debug}', line]
        if self.is_as_it_is:
            return [line]
        for pattern, method in (LOAD, self.load), (STORE, self.store), (EXCHANGE, self.exchange), (CHANGE, self.change), \
                (FENCE, self.fence), (BYTES, self.bytes):
            found = pattern.match(line)
            if found:
                return method(line, debug, *found.groups())
        if debug and CALLED.match(callee(line) or ''):
            return [f'  call void @__wathread_at({self.sites.at(None, debug)}){debug}', line,
                    f'  call void @__wathread_at(i32 0){debug}']
        return [line]

    def wait(self, line, name, arguments, debug):
        at, *rest = split(arguments)
        kind, value = at[:end_of_type(at, 0)], ATTRIBUTES.sub('', at[end_of_type(at, 0) + 1:])
        first, mark = self.number_of(f'{kind} {value}', debug)
        rest = [word[:4] + ATTRIBUTES.sub('', word[4:]) for word in rest]
        front = re.match(rf'  (?:%{NAME} = )?', line).group()
        return [first, f'{front}call i32 @__wathread_{name}({", ".join([f"i32 {mark}", *rest])}){debug}']

    def load(self, line, debug, result, atomic, words, _):
        kind, operand = split(words)
        if atomic:
            operand = SCOPE.sub('', operand)
            place, order = operand.rsplit(' ', 1)
            if kind_of(kind) not in BITS or not self.shared(place):
                return [line]
            first, at = self.number_of(place, debug)
            arguments = f'i32 {at}, i32 {ORDERS[order]}, {self.sites.at(place, debug)}'
            return [first, *self.answer(result, kind, f'load{BITS[kind_of(kind)]}', arguments, debug)]
        if not self.shared(operand):
            return [line]
        return [*self.told('reads', operand, self.size(kind), debug), line]

    def store(self, line, debug, atomic, words, _):
        value, operand = split(words)
        kind = value[:end_of_type(value + ' ', 0)]
        if atomic:
            operand = SCOPE.sub('', operand)
            place, order = operand.rsplit(' ', 1)
            if kind_of(kind) not in BITS or not self.shared(place):
                return [line]
            first, at = self.number_of(place, debug)
            lines, number = self.as_number(value, debug)
            arguments = f'i32 {at}, {number}, i32 {ORDERS[order]}, {self.sites.at(place, debug)}'
            return [first, *lines, f'  call void @__wathread_store{BITS[kind_of(kind)]}({arguments}){debug}']
        if not self.shared(operand):
            return [line]
        return [*self.told('writes', operand, self.size(kind), debug), line]

    def exchange(self, line, debug, result, weak, words):
        place, expected, rest = split(words)[:3]
        kind = expected[:end_of_type(expected, 0)]
        value, *orders = SCOPE.sub('', rest).rsplit(' ', 2)
        if kind_of(kind) not in BITS or not self.shared(place):
            return [line]
        first, at = self.number_of(place, debug)
        lines, number = self.as_number(expected, debug)
        more, changed = self.as_number(value, debug)
        mark, bits = self.mark(), BITS[kind_of(kind)]
        success, failure = [ORDERS[order] for order in orders]
        arguments = f'i32 {at}, {number}, {changed}, i32 {success}, i32 {failure}, i32 {int(bool(weak))}, ' + \
            self.sites.at(place, debug)
        if weak:
            test = [f'  {mark}.had = call i32 @__wathread_failed(){debug}', f'  {mark}.is = icmp eq i32 {mark}.had, 0{debug}']
        else:
            test = [f'  {mark}.is = icmp eq {kind} {mark}, {expected[len(kind) + 1:]}{debug}']
        return [first, *lines, *more, *self.answer(mark, kind, f'compare{bits}', arguments, debug), *test,
                f'  {mark}.half = insertvalue {{ {kind}, i1 }} undef, {kind} {mark}, 0{debug}',
                f'  {result} = insertvalue {{ {kind}, i1 }} {mark}.half, i1 {mark}.is, 1{debug}']

    def change(self, line, debug, result, what, words):
        place, rest = split(words)[:2]
        value, order = SCOPE.sub('', rest).rsplit(' ', 1)
        kind = value[:end_of_type(value, 0)]
        if what not in KINDS or kind_of(kind) not in BITS or not self.shared(place):
            return [line]
        first, at = self.number_of(place, debug)
        lines, number = self.as_number(value, debug)
        arguments = f'i32 {at}, i32 {KINDS[what]}, {number}, i32 {ORDERS[order]}, {self.sites.at(place, debug)}'
        return [first, *lines, *self.answer(result, kind, f'change{BITS[kind_of(kind)]}', arguments, debug)]

    def fence(self, line, debug, signal, order):
        site = self.sites.at(None, debug)
        return [line] if signal else [f'  call void @__wathread_fence(i32 {ORDERS[order]}, {site}){debug}']

    def bytes(self, line, debug, what, arguments):
        """Bytes that are copied or set at once."""
        items, lines = split(arguments), []
        size = items[2]
        if not size.startswith('i32 '):
            return [line]
        for name, item in ('reads', items[1]), ('writes', items[0]):
            if what == 'memset' and name == 'reads':
                continue
            end = end_of_type(item, 0)
            operand = f'{item[:end]} {ATTRIBUTES.sub("", item[end + 1:])}'
            if self.shared(operand):
                lines += self.told(name, operand, size[4:], debug)
        return [*lines, line]

    def size(self, kind):
        return size_of(kind, f'{kind}*' if self.sites.typed else 'ptr')

    def as_number(self, value, debug):
        """Lines that make a number of a value, and that number with its type: a pointer's is its address."""
        kind = value[:end_of_type(value + ' ', 0)]
        if kind in BITS:
            return [], value
        mark = self.mark()
        return [f'  {mark} = ptrtoint {value} to i32{debug}'], f'i32 {mark}'

    def answer(self, result, kind, name, arguments, debug):
        """A call that gives a value of this type."""
        if kind in BITS:
            return [f'  {result} = call {kind} @__wathread_{name}({arguments}){debug}']
        mark = self.mark()
        return [f'  {mark} = call i32 @__wathread_{name}({arguments}){debug}',
                f'  {result} = inttoptr i32 {mark} to {kind}{debug}']


def kind_of(kind):
    return 'i32' if kind == 'ptr' or kind.endswith('*') else kind


def declared(text, sites):
    """The text with the runtime's functions that it calls, its sites, and the mark of what is made so."""
    wanted = sorted(set(re.findall(r'@__wathread_(\w+)\(', text)))
    lines = sites.lines()
    for name in wanted:
        if re.search(rf'^(?:define|declare) .*@__wathread_{name}\(', text, re.M):
            continue
        front, bits = re.match(r'([a-z]+)(\d*)$', name).groups() if re.match(r'([a-z]+)(\d*)$', name) else ('', '')
        kind = OTHERS.get(name) or (RUNTIME[front].format(bits) if front in RUNTIME and bits else '')
        if kind:
            result, arguments = kind.split(' ', 1)
            lines.append(f'declare {result} @__wathread_{name}{arguments}')
    number = max([int(found) for found in re.findall(r'^!(\d+) = ', text, re.M)], default=-1) + 1
    return '\n'.join([text, *lines, f'!wasm.custom_sections = !{{!{number}}}', f'!{number} = !{{!"{MARK}", !"c11"}}', ''])


def is_weaker(text):
    """Whether a text has an atomic access or a fence of an order weaker than seq_cst."""
    return any(WEAKER.match(line) and '@_ZGV' not in line for line in text.split('\n'))     # C++ looks at its own so
