"""All runs of a drawn module, for agree.py: whether some run has a race by what happens before what; whether in some run
two threads are at once before accesses that race, or one is before an access that races with what another thread would
write by a compare-exchange, had no store come over it; and whether a thread waits with a timeout. It goes through the
operations themselves, in every order, and shares no code with the program. Runs that differ in the order of entries
alone that nothing orders are one.

The definitions are those of MEMORY_MODEL.md, "Races", written down plainly, with those that are meant. A thread knows
of each thread how many of its epochs happened before; an epoch ends with what another thread may read.

Of a compare-exchange of which a store covers a part alone the definition by neighbours says nothing. `meet_in_part`
says whether threads would meet in a race if it did: until another thread reads of the bytes that are left.
"""
import collections

from agree_modules import NOTHING, PAGE

MASK = 0xFFFFFFFF
BYTES, PAGES, LIST, THREADS = "bytes", "pages", "list", "threads"


# What a thread does next with the memory, by neighbours. One that is allowed may meet others that are.
Next = collections.namedtuple("Next", "plain reads writes conditional allowed addr width")

# What a thread would write by a compare-exchange, over which another one stored: all of it at once, or a part; and the
# bytes that are left, of which none was read since.
Over = collections.namedtuple("Over", "thread access at_once left")


class TooMany(Exception):
    pass


class World:
    """Memory, queue and threads, what these want, who knows what, and all accesses. What is put into `key` are values
    alone."""

    def __init__(self, ops):
        self.memory, self.pages, self.sleepers, self.alive, self.wants = {}, 1, (), (0,), {}
        # of each thread the operations that are left, as pairs, its local, and the low part of a load over two words
        self.threads, self.knows = [(linked(ops), 0, None)], [(0,)]
        # of each byte the last write: its range, whether it was atomic, and what its thread knew
        self.written, self.clocks, self.accesses, self.over = {}, {}, frozenset(), frozenset()

    def copy(self):
        new = World.__new__(World)
        new.__dict__.update(self.__dict__)
        for name in ["memory", "threads", "knows", "written", "clocks"]:
            setattr(new, name, getattr(self, name).copy())
        return new

    def key(self):
        tables = (frozenset(table.items()) for table in (self.memory, self.written, self.clocks))
        return (self.pages, self.sleepers, self.alive, tuple(self.threads), tuple(self.knows), self.accesses, self.over,
                *tables)


def linked(ops, rest=None):
    for op in reversed(ops):
        rest = (op, rest)
    return rest


def operand(op, r):
    return r if op.value == "r" else op.value


def end_of(op):
    return op.addr + (4 if op.kind == "notify" else op.width)


def is_unaligned(op):
    """An atomic access traps then, and makes no entry."""
    return op.atomic and op.kind not in ("grow", "size", "spawn", "fence") and op.addr % (end_of(op) - op.addr) != 0


def part_of(op, second):
    """The bytes of this part of an access."""
    border = (op.addr | 7) + 1
    if op.atomic or op.addr + op.width <= border:
        return op.addr, op.width
    return (border, op.addr + op.width - border) if second else (op.addr, border - op.addr)


def loaded(world, addr, width):
    return sum(world.memory.get(addr + i, 0) << (8 * i) for i in range(width))


def stored(world, addr, width, value):
    for i in range(width):
        byte = value >> (8 * i) & 255
        world.memory.pop(addr + i, None)
        if byte:
            world.memory[addr + i] = byte


def has_space(world, op, r, most):
    return world.pages + (operand(op, r) & MASK) <= most


class May:
    """What may race: accesses all of whose bytes are named, and, with `mixed`, atomic ones."""

    def __init__(self, allowed):
        self.named = {byte for first, last in allowed.spans for byte in range(first, last + 1)}
        self.mixed = allowed.mixed

    def has(self, addr, width):
        return addr in self.named and self.named.issuperset(range(addr, addr + width))


def wanted(world, n, most, may):
    """What a thread does next with the memory, by neighbours. Growths and looks pass all that can be named."""
    ops, r, low = world.threads[n]
    if ops is None or n not in world.alive or any(s[0] == n for s in world.sleepers):
        return None
    op = ops[0]
    if op.kind == "grow":
        return Next(False, True, True, False, False, PAGE, 2 ** 32 + 1) if has_space(world, op, r, most) else None
    if op.kind in ("size", "spawn", "fence") or is_unaligned(op):
        return None
    if end_of(op) > world.pages * PAGE or op.kind == "notify":
        return Next(False, True, False, False, False, 2 ** 32, 1) if end_of(op) > PAGE else None
    addr, width = part_of(op, low is not None)
    writes = op.kind in ("store", "add", "xchg") or op.kind == "cas" and loaded(world, addr, width) == op.expected
    named = may.has(addr, width)
    plain = not op.atomic and not named
    return Next(plain, op.kind != "store", writes, op.kind == "cas", named or may.mixed, addr, width)


def spawns_in(ops):
    return any(op.kind == "spawn" or spawns_in(op.then + op.other) for op in ops)


def is_timed(world, n):
    """Whether a thread that can go on waits next, within bounds, with a timeout that isn't 0 and ends."""
    op = world.threads[n][0][0]
    return op.kind == "wait" and op.timeout > 0


def are_met(a, b):
    return a.addr < b.addr + b.width and b.addr < a.addr + a.width


def are_matched(a, b):
    alike = a.allowed == b.allowed and (a.allowed or (a.addr, a.width) == (b.addr, b.width))
    return alike and not a.plain and not b.plain


def are_racing(a, b):
    return are_met(a, b) and (a.writes or b.writes) and not are_matched(a, b)


def writes_over(over, a):
    """Whether one stores over what the other would write, and may not where it finds something else; or over a part."""
    stores = over.writes and not over.reads
    return stores and a.writes and a.conditional and are_met(over, a) and are_matched(over, a)


def covers(a, b):
    return a.addr <= b.addr and b.addr + b.width <= a.addr + a.width


def left_behind(access, bytes):
    """The bytes, but for those that the access has."""
    return tuple(byte for byte in bytes if not access.addr <= byte < access.addr + access.width)


def split(may, access):
    """What an access to bytes is by what happens before what: one, or, where it may race, an atomic one to each of its
    bytes."""
    location, addr, width, reads, writes, atomic = access
    if not may.has(addr, width) and not (may.mixed and atomic):
        return [access]
    return [(location, byte, 1, reads, writes, True) for byte in range(addr, addr + width)]


class Runs:
    def __init__(self, bodies, most, limit=100000, allowed=NOTHING):
        self.bodies, self.most, self.limit, self.may = bodies, most, limit, May(allowed)
        self.meet, self.meet_in_part, self.timed = False, False, False
        self.kinds, self.ordered, self.states = set(), False, 0
        # what is the same to all other threads, now or later: a fence, and a spawn where thread 0 alone makes any
        self.own = ("fence",) if any(spawns_in(ops) for ops in bodies[1:]) else ("fence", "spawn")

    def go(self):
        first = World(self.bodies[0])
        seen, open = {first.key()}, [first]
        while open and not self.is_settled():
            world = open.pop()
            self.look(world)
            for n in self.next_threads(world):
                after = self.step(world, n)
                key = after.key()
                if key not in seen:
                    seen.add(key)
                    open.append(after)
            if len(seen) > self.limit:
                raise TooMany
        self.states = len(seen)

    def next_threads(self, world):
        """Who goes on: each that isn't asleep; or one alone that ends, traps or makes what is its own."""
        awake = [n for n in world.alive if all(s[0] != n for s in world.sleepers)]
        for n in awake:
            ops = world.threads[n][0]
            if ops is None or ops[0].kind in self.own or is_unaligned(ops[0]):
                return [n]
        return awake

    def said(self):
        """What `search --all` is to say of races."""
        return "found" if self.meet else "only behind timeouts" if self.timed else "never"

    def is_settled(self):
        """Whether no further state tells anything new: there are races by both definitions."""
        return self.meet and "race" in self.kinds

    def look(self, world):
        """Notes what each thread wants, and whether that races."""
        wants = world.wants = {n: a for n in world.alive if (a := wanted(world, n, self.most, self.may))}
        self.meet |= any(n < m and are_racing(a, b) for n, a in wants.items() for m, b in wants.items())
        for over in world.over:
            if any(n != over.thread and are_racing(a, over.access) for n, a in wants.items()):
                self.meet |= over.at_once
                self.meet_in_part = True
        self.timed |= any(is_timed(world, n) for n in wants)

    # What an entry does. An access is (thread, epoch, location, address, width, writes, atomic, marks).

    def write_over(self, world, n):
        """Who would write by a compare-exchange where thread n stores over it, whatever is there, until it goes on; or
        where it stores over a part, until another thread reads of the rest, too."""
        made, kept = world.wants.get(n), set()
        for over in world.over:
            left = left_behind(made, over.left) if made else over.left
            if over.thread != n and (left == over.left or not made.reads):
                kept.add(over._replace(left=left))
        for m, a in world.wants.items() if made else ():
            if m != n and writes_over(made, a):
                kept.add(Over(m, a, covers(made, a), left_behind(made, range(a.addr, a.addr + a.width))))
        world.over = frozenset(kept)

    def step(self, before, n):
        world = before.copy()
        self.write_over(world, n)
        ops, r, _ = world.threads[n]
        if ops is None:
            world.alive = tuple(m for m in world.alive if m != n)
            self.settle(world)
        elif is_unaligned(ops[0]):
            world.threads[n] = (None, r, None)
        else:
            getattr(self, "do_" + ops[0].kind)(world, n, ops[0], r)
        return world

    def goes_on(self, world, n, value):
        """The thread has an answer, or None where it is given none."""
        (op, rest), r, _ = world.threads[n]
        r = r if value is None else value & MASK
        if op.test is None or op.kind in ("store", "fence"):
            pass
        elif r == op.test & MASK:
            rest = linked(op.then, rest)
        elif op.spin:
            rest = world.threads[n][0]
        else:
            rest = linked(op.other, rest)
        world.threads[n] = (rest, r, None)

    def entry(self, world, n, accesses):
        """Joins what they read from, tells races with what was made before, notes them, and hands on what they write.
        An access is (location, address, width, reads, writes, atomic)."""
        for location, addr, width, reads, writes, atomic in accesses:
            if reads and atomic:
                self.join(world, n, self.source(world, location, addr, width))
        for one in accesses:
            self.tell(world, n, *one)
        self.note(world, n, accesses)
        clock = self.release(world, n) if any(writes and atomic for *_, writes, atomic in accesses) else None
        for location, addr, width, reads, writes, atomic in accesses:
            if writes:
                self.writes(world, location, addr, width, atomic, clock if atomic else None)

    def tell(self, world, n, location, addr, width, reads, writes, atomic):
        for a in world.accesses:
            meet = a[2] == location and a[3] < addr + width and addr < a[3] + a[4]
            if a[0] == n or not meet or not (a[5] or writes) or a[6] and atomic and a[3:5] == (addr, width):
                continue
            if world.knows[n][a[0]] > a[1]:
                self.ordered = True
            else:
                self.kinds.add("timeout" if "slept" in a[7] else "race")

    def note(self, world, n, accesses):
        """An earlier access that is the same, with no more marks, needn't be known any longer."""
        made = {(location, addr, width, writes, atomic) for location, addr, width, _, writes, atomic in accesses}
        others = [a for a in world.accesses if a[0] != n or a[7] or a[2:7] not in made]
        epoch = world.knows[n][n]
        world.accesses = frozenset(others + [(n, epoch, *what, frozenset()) for what in made])

    def source(self, world, location, addr, width):
        if location != BYTES:
            return world.clocks.get((location, addr))
        last = {world.written.get(addr + i) for i in range(width)}
        one = last.pop()
        return one[3] if not last and one and one[:3] == (addr, width, True) else None

    def join(self, world, n, clock):
        if clock:
            mine = world.knows[n] + (0,) * (len(clock) - len(world.knows[n]))
            world.knows[n] = tuple(max(a, b) for a, b in zip(mine, clock + (0,) * (len(mine) - len(clock))))

    def release(self, world, n):
        """What is handed on: all up to here. A new epoch begins."""
        world.knows[n] = tuple(k + (m == n) for m, k in enumerate(world.knows[n]))
        return world.knows[n]

    def writes(self, world, location, addr, width, atomic, clock):
        if location == BYTES:
            world.written.update({addr + i: (addr, width, atomic, clock) for i in range(width)})
        else:
            world.clocks[location, addr] = clock

    def within(self, world, n, op, accesses):
        """An entry that looks at the number of pages, where that may matter; whether its bytes are within them."""
        looks = [(PAGES, 0, 1, True, False, False)] if end_of(op) > PAGE else []
        is_within = end_of(op) <= world.pages * PAGE
        self.entry(world, n, (accesses if is_within else []) + looks)
        if not is_within:
            world.threads[n] = (None, world.threads[n][1], None)
        return is_within

    def do_bytes(self, world, n, op, r):
        low = world.threads[n][2]
        addr, width = part_of(op, low is not None)
        old, value = loaded(world, addr, width), operand(op, r) & (1 << 8 * op.width) - 1
        writes = op.kind in ("store", "add", "xchg") or op.kind == "cas" and old == op.expected & (1 << 64) - 1
        accesses = split(self.may, (BYTES, addr, width, op.kind != "store", writes, op.atomic))
        if not self.within(world, n, op, accesses):
            return
        if writes:
            stored(world, addr, width, (old + value if op.kind == "add" else value >> 8 * (addr - op.addr)))
        if width < op.width and low is None:
            world.threads[n] = (world.threads[n][0], r, old)
        else:
            self.goes_on(world, n, None if op.kind == "store" else old << 8 * (addr - op.addr) | (low or 0))

    do_load = do_store = do_add = do_xchg = do_cas = do_bytes

    def do_size(self, world, n, op, r):
        self.entry(world, n, [(PAGES, 0, 1, True, False, True)])
        self.goes_on(world, n, world.pages)

    def do_grow(self, world, n, op, r):
        can, old = has_space(world, op, r, self.most), world.pages
        self.entry(world, n, [(PAGES, 0, 1, True, can, True)])
        world.pages += (operand(op, r) & MASK) if can else 0
        self.goes_on(world, n, old if can else -1)

    def do_fence(self, world, n, op, r):
        self.goes_on(world, n, None)

    def do_spawn(self, world, n, op, r):
        self.entry(world, n, [(THREADS, 0, 1, True, True, True)])
        number, body = len(world.threads), operand(op, r)
        ops = self.bodies[body] if 0 < body < len(self.bodies) else []
        world.threads.append((linked(ops), 0, None))
        world.alive += (number,)
        world.knows = [k + (0,) * (number + 1 - len(k)) for k in world.knows] + [(0,) * (number + 1)]
        self.join(world, number, world.knows[n])
        self.goes_on(world, n, number)

    def do_wait(self, world, n, op, r):
        asked = split(self.may, (BYTES, op.addr, op.width, True, False, True))
        asked.append((LIST, op.addr, 1, True, True, True))
        if not self.within(world, n, op, asked):
            return
        if loaded(world, op.addr, op.width) != op.expected:
            self.goes_on(world, n, 1)
        elif op.timeout == 0:
            self.goes_on(world, n, 2)
        else:
            world.sleepers += ((n, op.addr, op.timeout),)
        self.settle(world)

    def do_notify(self, world, n, op, r):
        if not self.within(world, n, op, [(LIST, op.addr, 1, True, True, True)]):
            return
        woken = [s for s in world.sleepers if s[1] == op.addr][:operand(op, r) & MASK]
        world.sleepers = tuple(s for s in world.sleepers if s not in woken)
        for s in woken:
            self.join(world, s[0], world.knows[n])
            self.goes_on(world, s[0], 0)
        self.goes_on(world, n, len(woken))

    def settle(self, world):
        """Where all sleep the least time ends, or all stop."""
        asleep = {s[0] for s in world.sleepers}
        if not world.alive or any(n not in asleep for n in world.alive):
            return
        timed = [(s[2], s[0]) for s in world.sleepers if s[2] > 0]
        if not timed:
            world.alive, world.sleepers = (), ()
            return
        n = min(timed)[1]
        world.sleepers = tuple(s for s in world.sleepers if s[0] != n)
        world.accesses = frozenset(a[:7] + (a[7] | {"slept"},) for a in world.accesses)
        self.goes_on(world, n, 2)
