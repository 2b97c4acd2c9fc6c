"""Drawn modules of two to four threads for agree.py, and what makes bytes and text of them.

Thread 0 is the export `f`, and spawns the others, the exports b1, b2 and so on. Each makes one to some eight
operations on few addresses, mostly below an `if` on what an earlier one gave. Three of four modules are made of a
pattern: data are touched by one thread, something is handed on, and another thread touches them where it has seen that.
What is handed on is a word, the number of pages, a list of waiters, or the count of threads. Some of the patterns are
spoiled then.
"""
import collections
import random

from endings import leb_of, signed_leb

PAGE = 65536

# What may race: spans of addresses, both ends among them, and whether atomic accesses of different bytes may.
Allowed = collections.namedtuple("Allowed", "spans mixed")
NOTHING = Allowed((), False)

# `kind` is load, store, add, xchg, cas, size, grow, wait, notify, spawn or fence. What it gives is put into the one
# local of the thread, r; where `test` isn't None, `then` is made if that is `test`, else `other`; with `spin` the
# operation is made until it is. `value` is what is stored or added, or the count; the letter r stands for the local.
Op = collections.namedtuple("Op", "kind addr width atomic value expected timeout test then other spin", defaults=
    (0, 4, True, 1, 0, -1, None, (), (), False))

PLAIN = {"load": {1: 0x2D, 2: 0x2F, 4: 0x28, 8: 0x29}, "store": {1: 0x3A, 2: 0x3B, 4: 0x36, 8: 0x37}}
ATOMIC = {"load": 0x10, "store": 0x17, "add": 0x1E, "xchg": 0x41, "cas": 0x48}
PLACE = {4: 0, 8: 1, 1: 2, 2: 3}
MEMORY = {"size": ("memory.size", b"\x3f\0"), "grow": ("memory.grow", b"\x40\0"), "spawn": ("call $spawn", b"\x10\0"),
          "fence": ("atomic.fence", b"\xfe\3\0"), "notify": ("memory.atomic.notify", b"\xfe\0\2\0")}
EQUAL, UNEQUAL = [("i32.eq", b"\x46")], [("i32.ne", b"\x47")]
IF, ELSE, END = ("if", b"\x04\x40"), ("else", b"\x05"), ("end", b"\x0b")
LOOP, AGAIN = ("loop", b"\x03\x40"), ("br_if 0", b"\x0d\0")


# Instructions: each a text and its bytes. Code is a list of lines, each of some instructions.


def const(n, width=4):
    kind, opcode = ("i64", b"\x42") if width == 8 else ("i32", b"\x41")
    return (f"{kind}.const {n}", opcode + signed_leb(n))


def access(kind, width, atomic):
    """A load, a store, a read-modify-write or a compare-exchange; the narrow ones are of 32 bits."""
    name, narrow = "i64" if width == 8 else "i32", "" if width > 2 else str(8 * width)
    unsigned = "_u" if width <= 2 and kind != "store" else ""
    if not atomic:
        return (f"{name}.{kind}{narrow}{unsigned} align=1", bytes([PLAIN[kind][width], 0, 0]))
    verb = {"load": f"load{narrow}", "store": f"store{narrow}", "cas": f"rmw{narrow}.cmpxchg"}
    said = verb.get(kind, f"rmw{narrow}.{kind}")
    return (f"{name}.atomic.{said}{unsigned}",
            bytes([0xFE, ATOMIC[kind] + PLACE[width], width.bit_length() - 1, 0]))


def wait(width):
    return (f"memory.atomic.wait{8 * width}", bytes([0xFE, 1 if width == 4 else 2, width.bit_length() - 1, 0]))


def valued(value, width, local):
    if value != "r":
        return [const(value, width)]
    got = (f"local.get {local}", b"\x20" + leb_of(local))
    return [got, ("i64.extend_i32_u", b"\xad")] if width == 8 else [got]


def question(op, local):
    """The instructions of an operation, up to what it gives, as an i32."""
    if op.kind in ("size", "fence"):
        return [MEMORY[op.kind]]
    if op.kind in ("grow", "spawn"):
        return [*valued(op.value, 4, local), MEMORY[op.kind]]
    if op.kind == "notify":
        return [const(op.addr), *valued(op.value, 4, local), MEMORY["notify"]]
    if op.kind == "wait":
        return [const(op.addr), const(op.expected, op.width), const(op.timeout, 8), wait(op.width)]
    given = [const(op.expected, op.width)] if op.kind == "cas" else []
    given += valued(op.value, op.width, local) if op.kind != "load" else []
    wrap = [("i32.wrap_i64", b"\xa7")] if op.width == 8 and op.kind != "store" else []
    return [const(op.addr), *given, access(op.kind, op.width, op.atomic), *wrap]


def code_of(ops, local):
    lines = []
    for op in ops:
        asked, k = question(op, local), [const(op.test or 0)]
        kept = [(f"local.tee {local}", b"\x22" + leb_of(local))]
        if op.kind in ("store", "fence"):
            lines += [asked]
        elif op.test is None:
            lines += [asked + [(f"local.set {local}", b"\x21" + leb_of(local))]]
        elif op.spin:
            lines += [[LOOP], asked + kept + k + UNEQUAL + [AGAIN], [END]] + code_of(op.then, local)
        else:
            lines += [asked + kept + k + EQUAL + [IF]] + code_of(op.then, local)
            lines += [[ELSE]] + code_of(op.other, local) if op.other else []
            lines += [[END]]
    return lines


def text_of(lines):
    depth, out = 2, []
    for line in lines:
        depth -= line[0][0] in ("end", "else")
        out.append("  " * depth + " ".join(text for text, _ in line))
        depth += line[-1][0] in ("if", "loop", "else")
    return "\n".join(out)


# A module of bodies, each a list of operations; the first is thread 0's.


def section(kind, contents):
    return bytes([kind]) + leb_of(len(contents)) + contents


def vector(items):
    return leb_of(len(items)) + b"".join(items)


def start_of(bodies):
    """`wasi_thread_start`: the body whose number the argument is."""
    lines = []
    for number in range(1, len(bodies)):
        lines += [[("local.get 1", b"\x20\1"), const(number), *EQUAL, IF,
                   (f"call $b{number}", b"\x10" + leb_of(number + 1)), ("drop", b"\x1a"), END]]
    return lines


def exported(name, kind, index):
    return leb_of(len(name)) + name.encode() + bytes([kind]) + leb_of(index)


def bytes_of(bodies, most):
    def function(locals, lines):
        body = locals + b"".join(bytes for line in lines for _, bytes in line) + b"\x0b"
        return leb_of(len(body)) + body

    result = [("local.get 0", b"\x20\0")]
    functions = [function(b"\1\1\x7f", code_of(ops, 0) + [result]) for ops in bodies]
    names = ["f"] + [f"b{number}" for number in range(1, len(bodies))] + ["wasi_thread_start"]
    module = b"\0asm\1\0\0\0"
    module += section(1, b"\3\x60\1\x7f\1\x7f\x60\0\1\x7f\x60\2\x7f\x7f\0")
    module += section(2, b"\1\4wasi\x0cthread-spawn\0\0")
    module += section(3, vector([b"\1"] * len(bodies) + [b"\2"]))
    module += section(5, b"\1\3\1" + leb_of(most))
    module += section(7, vector([exported(name, 0, index + 1) for index, name in enumerate(names)]))
    return module + section(10, vector(functions + [function(b"\0", start_of(bodies))]))


def wat_of(bodies, most):
    spawn = '(import "wasi" "thread-spawn" (func $spawn (param i32) (result i32)))'
    out = ["(module", f"  {spawn}", f"  (memory 1 {most} shared)"]
    for number, ops in enumerate(bodies):
        out.append(f'  (func $b{number} (export "{f"b{number}" if number else "f"}") (result i32) (local i32)')
        out.append(text_of(code_of(ops, 0) + [[("local.get 0", b"")]]) + ")")
    out.append('  (func (export "wasi_thread_start") (param i32 i32)')
    return "\n".join(out + [text_of(start_of(bodies)) + "))"])


# What is drawn. Data lie in the bytes from 0 to 15, words that are handed on from 16 on, lists of waiters from 48 on.


def widened(draw, base):
    """Some bytes at or beside a word: itself mostly, or a part, or its aligned eight bytes, or eight over two words."""
    parts = [(base, 1), (base + 1, 1), (base + 3, 1), (base + 2, 2), (base, 2)]
    wide = [(base & ~7, 8), (base | 4, 8), (base + 1, 4), (base + 2, 4), (base + 4, 4)]
    return draw.choice([(base, 4)] * 6 + parts + wide)


def data_op(draw, base, writes=None):
    addr, width = widened(draw, base)
    if writes is None:
        writes = draw.random() < 0.5
    if writes:
        return Op("store", addr, width, False, draw.choice([1, 2, 3, "r"]))
    return Op("load", addr, width, False)


def data_ops(draw, base, writes=None):
    first = [data_op(draw, base, writes)]
    return first + [data_op(draw, base)] if draw.random() < 0.25 else first


def by_word(draw):
    """What hands something on by a word, and what sees that."""
    addr, width = draw.choice([(16, 4)] * 3 + [(20, 4), (24, 8), (40, 1), (42, 2)])
    v, at = draw.choice([1, 1, 2]), {"addr": addr, "width": width}
    given = draw.choice([Op("store", value=v, **at)] * 3 + [Op("xchg", value=v, **at), Op("add", value=v, **at),
                                                            Op("cas", value=v, **at)])
    seen = [Op("load", test=v, **at)] * 3 + [Op("add", value=0, test=v, **at), Op("add", value=1, test=v, **at),
            Op("xchg", value=3, test=v, **at), Op("cas", expected=v, value=v + 1, test=v, **at),
            Op("load", test=v, spin=True, **at)]
    if width >= 4:
        seen += [Op("wait", expected=0, timeout=-1, test=1, **at), Op("wait", expected=v, timeout=0, test=2, **at)]
    return [given], draw.choice(seen)


def by_pages(draw):
    seen = [Op("size", test=2), Op("size", test=2), Op("size", test=2, spin=True)]
    return [Op("grow", value=1)], draw.choice(seen + [Op("grow", value=0, test=2), Op("grow", value=1, test=2)])


def by_bounds(draw):
    """What traps before a growth: nothing orders that."""
    addr, width = draw.choice([(PAGE, 4), (PAGE - 4, 8), (PAGE + 8, 8), (PAGE + 1, 1)])
    atomic = addr % width == 0 and draw.random() < 0.5
    return [Op("grow", value=1)], Op("load", addr, width, atomic, test=0)


def by_count_of_threads(draw, threads, idle):
    return [Op("spawn", value=idle)], Op("spawn", value=idle, test=threads + 1)


def by_notify(draw):
    """A notify that counted a sleeper; or the sleeper, which was woken."""
    addr, width = draw.choice([(48, 4), (48, 4), (56, 8)])
    asleep = Op("wait", addr, width, timeout=draw.choice([-1, -1, 7]))
    notified = Op("notify", addr, value=draw.choice([1, 1, 2, -1]))
    if draw.random() < 0.5:
        return [asleep], notified._replace(test=1)
    return [notified], asleep._replace(test=0)


def by_sleep(draw):
    """A timeout, which ends since all sleep or have ended."""
    given = [Op("wait", 52, timeout=draw.choice([-1, 9]))] if draw.random() < 0.4 else []
    return given, Op("wait", 48, timeout=draw.choice([5, 9]), test=2)


def handed_on(draw, threads, idle):
    way = draw.choice(["word"] * 5 + ["pages"] * 2 + ["bounds", "threads", "notify", "notify", "sleep"])
    if way == "threads":
        return by_count_of_threads(draw, threads, idle)
    return {"word": by_word, "pages": by_pages, "bounds": by_bounds, "notify": by_notify, "sleep": by_sleep}[way](draw)


def chain(draw, threads, idle):
    """One hands the data on to the next, and that one to the next."""
    base, bodies = draw.choice([0, 4, 8, 8, PAGE - 4, PAGE]), []
    seen = None
    for number in range(threads):
        ops = data_ops(draw, base, True if number == 0 else None)
        given, next = handed_on(draw, threads, idle)
        ops += given if number + 1 < threads else []
        if seen and draw.random() < 0.93:
            ops = [seen._replace(then=tuple(ops))]
        bodies, seen = bodies + [ops], next
    if base >= PAGE - 4 and draw.random() < 0.8:
        bodies[0] = [Op("grow", value=1)] + bodies[0]
    return bodies


def lock(draw, threads, idle):
    at = {"addr": draw.choice([16, 20]), "width": 4}
    spin, bodies = draw.random() < 0.25, []
    for _ in range(threads):
        taken = draw.choice([Op("cas", expected=0, value=1, **at)] * 3 + [Op("xchg", value=1, **at)])
        let = draw.choice([Op("store", value=0, **at)] * 2 + [Op("xchg", value=0, **at), Op("add", value=-1, **at),
                                                              Op("cas", expected=1, value=0, **at)])
        ops = data_ops(draw, 8) + [let]
        bodies.append([taken._replace(test=0, then=tuple(ops), spin=spin)])
    return bodies


def begun(draw, threads, idle):
    """Thread 0 makes the data before it spawns, and looks at them when it has seen that all are done."""
    bodies, count = [[]], 32
    for number in range(1, threads):
        bodies.append([Op("load", 4 + draw.randrange(4), 1, False), data_op(draw, 8 + 4 * (number - 1), True),
                       Op("add", count, value=1)])
    seen = Op("load", count, test=threads - 1, then=tuple(data_ops(draw, 8)), spin=draw.random() < 0.3)
    bodies[0] = [data_op(draw, 4, True)] + spawns(threads) + [seen]
    return bodies


def last_one(draw, threads, idle):
    """Each has bytes of its own, and the one that counts itself last looks at all."""
    looked = draw.choice([Op("load", 4, 8, False), Op("store", 4, 8, False, 0), Op("load", 8, 4, False)])
    bodies = []
    for number in range(threads):
        own = draw.choice([Op("store", 8 + number, 1, False, 1), Op("store", 4 + 2 * number, 2, False, 1)])
        bodies.append([own, Op("add", 32, value=1, test=threads - 1, then=(looked,))])
    return bodies


def written_over(draw, threads, idle):
    """A compare-exchange, a store of another thread behind it, and a third that has seen that one alone."""
    at, g = {"addr": 16, "width": 4}, 20
    looks = [("load", 16, 4, False), ("load", 16, 1, False), ("store", 16, 4, False), ("load", 16, 8, True)]
    looked = Op(*draw.choice(looks))
    then = (data_op(draw, 8, True),) if draw.random() < 0.3 else ()
    over = draw.choice([Op("store", value=2, **at)] * 3 + [Op("xchg", value=2, **at)])
    exchange = Op("cas", value=1, test=0, then=then, **at)
    return [[Op("load", g, test=1, then=(looked,))], [exchange], [over, Op("store", g)]]


ANY = ["load"] * 5 + ["store"] * 5 + ["add", "xchg", "cas", "cas", "size", "grow", "wait", "notify", "spawn", "fence"]
WORDS = [(16, 4)] * 4 + [(20, 4)] * 3 + [(16, 8), (16, 1), (18, 2), (24, 8), (PAGE - 4, 4), (PAGE, 4), (48, 4)]
LISTS = [(48, 4), (48, 4), (56, 8), (16, 4), (PAGE, 4)]


def noise_op(draw, idle, depth=1):
    """Any operation, at few addresses."""
    kind = draw.choice(ANY)
    atomic = kind not in ("load", "store") or draw.random() < 0.6
    addr, width = draw.choice(LISTS if kind in ("wait", "notify") else WORDS)
    if not atomic:
        addr, width = draw.choice([(addr, width), widened(draw, 8), (PAGE - 4, 8), (PAGE, 4), (20, 8)])
    values = [0, 1, 1, 2, "r"] if kind in ("store", "xchg", "cas") else [0, 1, 1]
    value = idle if kind == "spawn" else draw.choice(values)
    op = Op(kind, addr, width, atomic, value, draw.choice([0, 0, 1]), draw.choice([-1, -1, 0, 5, 9]))
    if depth and kind not in ("store", "fence") and draw.random() < 0.5:
        then = tuple(noise_op(draw, idle, depth - 1) for _ in range(draw.choice([1, 1, 2])))
        other = (noise_op(draw, idle, depth - 1),) if draw.random() < 0.2 else ()
        op = op._replace(test=draw.choice([0, 1, 1, 2]), then=then, other=other)
    return op


def noise(draw, threads, idle):
    return [[noise_op(draw, idle) for _ in range(draw.choice([1, 2, 2, 3, 4]))] for _ in range(threads)]


# How a pattern is spoiled.


def changed(draw, op):
    """One operation in the place of another."""
    how = draw.choice(["atomic", "width", "addr", "test", "value", "bare", "gone"])
    if how == "atomic" and op.kind in ("load", "store"):
        return [op._replace(atomic=not op.atomic and op.addr % op.width == 0)]
    if how == "width" and op.kind in ("load", "store", "add", "xchg", "cas"):
        width = draw.choice([1, 2, 4, 8])
        return [op._replace(width=width)] if not op.atomic or op.addr % width == 0 else [op]
    if how == "addr" and op.kind in ("load", "store", "notify", "add", "xchg", "cas"):
        return [op._replace(addr=op.addr + draw.choice([-1, 1]) * max(op.width, 4))] if op.addr >= 8 else [op]
    if how == "test" and op.test is not None:
        return [op._replace(test=draw.choice([0, 1, 2, 3]), spin=False)]
    if how == "value" and op.kind in ("store", "xchg", "cas", "add", "notify", "grow"):
        return [op._replace(value=draw.choice([0, 1, 2]))]
    if how == "bare":
        return [op._replace(test=None, then=(), other=()), *op.then]
    return [] if how == "gone" and op.kind != "spawn" else [op]


def spoiled(draw, ops, place, change):
    """The operations with the one at this place, nested ones counted, changed; and what is left of the place."""
    out = []
    for op in ops:
        if place == 0:
            out += change(op)
        else:
            then, place = spoiled(draw, op.then, place - 1, change)
            out.append(op._replace(then=tuple(then)))
            place += 1
        place -= 1
    return out, place


def count_of(ops):
    return sum(1 + count_of(op.then) for op in ops)


def spoil(draw, bodies, idle):
    body = draw.randrange(len(bodies))
    if draw.random() < 0.4 or not count_of(bodies[body]):
        place = draw.randrange(len(bodies[body]) + 1)
        bodies[body] = bodies[body][:place] + [noise_op(draw, idle)] + bodies[body][place:]
    else:
        place = draw.randrange(count_of(bodies[body]))
        bodies[body], _ = spoiled(draw, bodies[body], place, lambda op: changed(draw, op))


def spawns(threads):
    return [Op("spawn", value=number) for number in range(1, threads)]


PATTERNS = [(chain, 46), (lock, 10), (begun, 8), (last_one, 6), (written_over, 5), (noise, 25)]


def draw_module(seed):
    """The pattern's name, the bodies, and how many pages the memory may have."""
    draw = random.Random(seed)
    pattern = draw.choices([pattern for pattern, _ in PATTERNS], [weight for _, weight in PATTERNS])[0]
    threads = 3 if pattern is written_over else draw.choice([2, 2, 3, 3, 4] if pattern is begun else [2, 2, 3])
    bodies = pattern(draw, threads, threads)
    if pattern is not begun:
        draw.shuffle(bodies)
    for _ in range(draw.choice([0, 0, 0, 1, 1, 2])):
        spoil(draw, bodies, threads)
    if pattern is not begun:
        place = 1 if bodies[0] and draw.random() < 0.1 else 0
        bodies[0] = bodies[0][:place] + spawns(threads) + bodies[0][place:]
    bodies.append([data_op(draw, 8)] if draw.random() < 0.2 else [])
    return pattern.__name__, bodies, draw.choice([2, 3, 3])


# What may race in it.


def touched_by(ops):
    """The bytes of each access, where it begins and how many they are, nested ones too."""
    for op in ops:
        if op.kind in ("load", "store", "add", "xchg", "cas", "wait"):
            yield op.addr, op.width
        yield from touched_by(op.then + op.other)


def span_by(draw, addr, width):
    """The bytes of an access mostly; or some of them, the aligned eight bytes there, or some at or beside them."""
    how = draw.choice(["all"] * 4 + ["part", "part", "eight", "beside"])
    if how == "part":
        first = draw.randrange(addr, addr + width)
        return first, draw.randrange(first, addr + width)
    if how == "beside":
        first = draw.randrange(max(addr - 4, 0), addr + width)
        return first, first + draw.randrange(8)
    return (addr & ~7, addr | 7) if how == "eight" else (addr, addr + width - 1)


def loosened(draw, ops):
    """Some atomic accesses are plain now, and some have other bytes, so that much hangs on what may race."""
    for op in ops:
        if op.kind in ("load", "store") and draw.random() < 0.4:
            op = op._replace(atomic=False)
        if op.kind in ("load", "store", "add", "xchg", "cas") and draw.random() < 0.3:
            addr, width = op.addr + draw.choice([0, 0, 1, 2, 3]), draw.choice([1, 2, 4, 8])
            op = op._replace(addr=addr - addr % width, width=width)
        yield op._replace(then=tuple(loosened(draw, op.then)), other=tuple(loosened(draw, op.other)))


def draw_allowance(seed, bodies):
    """The bodies, of half of the modules loosened; and what may race in them: some spans of what they touch, and in a
    third mixed accesses."""
    draw = random.Random(seed)
    if draw.random() < 0.5:
        bodies = [list(loosened(draw, ops)) for ops in bodies]
    touched = sorted({access for ops in bodies for access in touched_by(ops)})
    mixed = draw.random() < 1 / 3
    count = draw.choice([0, 1, 2, 3] if mixed else [1, 1, 2, 2, 3, 4]) if touched else 0
    spans = {span_by(draw, *draw.choice(touched)) for _ in range(count)}
    return bodies, Allowed(tuple(sorted(spans)), mixed)
