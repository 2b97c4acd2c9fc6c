"""Names of what each thread has for itself, which wathread-link adds to the debug information of a module. That names
static data; of a stack it says nothing, and of thread-local data the place in `main`. So it gets a unit more: for each
thread a static variable as `thread-1`, which no variable of C is called, a structure of

- `stack`, an array of bytes;
- each thread-local variable: a member that refers to its entry for the name and the type, where it has one. Others, as
  those of the library, have the names that the linker's map says, and are numbers or bytes;
- `thread_local`, all thread-local data: it stands last, for what is in none of those members.
"""
import os
import re

from binary import Reader, number

# The kinds of entries of that unit (DWARF 4): what it is, whether others follow that belong to it, and what is said of it.
KINDS = (b'\x11\x01',                                   # 1, the unit
         b'\x24\x00\x03\x08\x0B\x0B\x3E\x0B',           # 2, a type: its name, size and encoding
         b'\x01\x01\x49\x15',                           # 3, an array: the type of its elements
         b'\x21\x00\x37\x0F',                           # 4, how many elements it has
         b'\x13\x01\x0B\x0F',                           # 5, a structure: its size
         b'\x0D\x00\x03\x08\x49\x15\x38\x0F',           # 6, a member: its name, type and place
         b'\x0D\x00\x31\x10\x38\x0F',                   # 7, a member that is an entry of another unit: which, and its place
         b'\x34\x00\x03\x08\x49\x15\x02\x18')           # 8, a variable: its name, type and address
TABLE = b''.join(number(code) + kind + b'\0\0' for code, kind in enumerate(KINDS, 1)) + b'\0'
HEADER = 11                                             # bytes in front of the entries

# The place of a thread-local variable: a number of 4 bytes, and the operation that makes an address of it; or, of later
# versions, the global variable __tls_base, and that number added to it.
PLACE = re.compile(rb'\x0C(....)[\x9B\xE0]|\xED\x03....\x03(....)\x22', re.S)

# A line of the linker's map: an address or none, an offset, a size, and spaces in front of what it is about, by what that
# is: none of a segment, so many of a part of an object, and of a symbol.
MAPPED, PART, SYMBOL = re.compile(r' *([0-9a-f]+|-) +[0-9a-f]+ +([0-9a-f]+) ( *)(.*)'), 8, 16

VARIABLE, LOCATION = 0x34, 0x02
# How values are spelled, by their forms: in so many bytes, as numbers, as bytes behind their count, which has so many.
STRING, CONSTANT = 0x08, 0x21
SIZES = {0: (0x19, CONSTANT), 1: (0x0B, 0x0C, 0x11, 0x25, 0x29), 2: (0x05, 0x12, 0x26, 0x2A), 3: (0x27, 0x2B),
         4: (0x01, 0x06, 0x0E, 0x10, 0x13, 0x17, 0x1C, 0x1D, 0x1F, 0x28, 0x2C), 8: (0x07, 0x14, 0x20, 0x24), 16: (0x1E,)}
FIXED = {form: size for size, forms in SIZES.items() for form in forms}
NUMBERS, COUNTED, COUNTED_BY = {0x0D, 0x0F, 0x15, 0x1A, 0x1B, 0x22, 0x23}, {0x09, 0x18}, {0x03: 2, 0x04: 4, 0x0A: 1}


def read_kinds(table):
    """The kinds of a table: of each code what it is, and the attributes with their forms."""
    kinds = {}
    while code := table.number():
        kinds[code] = table.number(), []
        table.byte()
        while (spec := (table.number(), table.number())) != (0, 0):
            kinds[code][1].append(spec)
            if spec[1] == CONSTANT:
                table.number()
    return kinds


def read_value(reader, form):
    """The bytes of a value, where it is one of bytes."""
    if form in FIXED:
        reader.at += FIXED[form]
    elif form in NUMBERS:
        reader.number()
    elif form in COUNTED:
        return reader.bytes()
    elif form == STRING:
        reader.at = reader.data.index(0, reader.at) + 1
    else:
        size = reader.little(COUNTED_BY[form])
        reader.at += size
    return b''


def read_unit(unit, end, table):
    """The thread-local variables among the entries of a unit: the place of each, and the offset of its entry."""
    kinds = read_kinds(table)
    while unit.at < end:
        entry = unit.at
        code = unit.number()
        tag, specs = kinds[code] if code else (0, ())
        for attribute, form in specs:
            value = read_value(unit, form)
            if tag == VARIABLE and attribute == LOCATION and (found := PLACE.fullmatch(value)):
                yield int.from_bytes(found[1] or found[2], 'little'), entry


def thread_locals(info, tables):
    """The same of all units. Of one that can't be read it is what was read."""
    found, unit = {}, Reader(info)
    while unit.more():
        end = unit.little(4) + unit.at
        is_5 = unit.little(2) == 5
        unit.at += 2 * is_5
        table = unit.little(4)
        unit.at += not is_5
        if PLACE.search(info, unit.at, end):
            try:
                for place, entry in read_unit(unit, end, Reader(tables, table)):
                    found.setdefault(place, entry)
            except (IndexError, KeyError, ValueError):
                pass
        unit.at = end
    return found


def mapped(lines):
    """The thread-local data of the linker's map: place, size and name of each."""
    is_there = False
    for line in lines:
        found = MAPPED.match(line)
        if found and not found[3]:
            is_there = found[4] == '.tdata'
        elif found and is_there and len(found[3]) == SYMBOL:
            yield int(found[1], 16), int(found[2], 16), found[4].replace('__wathread_', '')


def data_of(lines):
    """The data of all objects by the linker's map: of each part its segment, place, size, object and name."""
    segment = ''
    for line in lines:
        found = MAPPED.match(line)
        if found and not found[3]:
            segment = found[4]
        elif found and len(found[3]) == PART and found[1] != '-':
            its_object, _, part = found[4].rpartition(':')
            yield segment, int(found[1], 16), int(found[2], 16), its_object, part


def place_of(lines, name):
    """The place of thread-local data by its name in the map, where it is there."""
    return next((place for place, _, its_name in mapped(lines) if its_name == name), None)


class Own:
    """The unit, as far as it is written. Thread-local data have so many bytes, and lie from `image` on by what is said of
    them: `entries` have offsets by places, and `others` are those of the map."""

    def __init__(self, stack, size, image, entries, others):
        self.out, self.types, self.structures = bytearray(b'\x01\x02char\0\x01\x08'), {1: HEADER + 1}, {}
        self.stack, self.size = stack, size
        members = [(place - image, b'\x07' + entry.to_bytes(4, 'little')) for place, entry in entries.items()]
        members += [(place - image, self.member(name, its_size)) for place, its_size, name in others
                    if place not in entries and its_size]
        members += [(0, self.member('thread_local', size))] * (size > 0)
        self.members = [(at, member) for at, member in members if 0 <= at < size]

    def add(self, more):
        """Adds an entry, and gives its offset."""
        self.out += more
        return HEADER + len(self.out) - len(more)

    def type(self, size):
        """A type of so many bytes: a number, or an array of bytes."""
        if size not in self.types:
            self.types[size] = self.add(b'\x02number\0' + bytes([size, 7]) if size in (2, 4, 8) else
                                        b'\x03' + number(HEADER + 1) + b'\x04' + number(size) + b'\0')
        return number(self.types[size])

    def member(self, name, size):
        """A member, but for its place."""
        return b'\x06' + os.fsencode(name) + b'\0' + self.type(size)

    def structure(self, data):
        """That of a thread whose thread-local data lie so far behind the first byte of its stack."""
        if data not in self.structures:
            members = [(0, self.member('stack', self.stack))] + [(data + at, member) for at, member in self.members]
            self.structures[data] = self.add(b'\x05' + number(data + self.size) +
                                             b''.join(member + number(at) for at, member in members) + b'\0')
        return number(self.structures[data])

    def thread(self, thread, first, data):
        kind = self.structure(data)
        self.add(b'\x08thread-%d\0' % thread + kind + b'\x05\x03' + first.to_bytes(4, 'little'))

    def unit(self, tables):
        """The unit, whose kinds stand behind those that are there."""
        out = b'\x04\0' + len(tables).to_bytes(4, 'little') + b'\x04' + self.out + b'\0'
        return len(out).to_bytes(4, 'little') + out


def names(info, tables, lines, stack, size, image, threads):
    """What is added to the sections of entries and of their kinds. `lines` are those of the map; of each thread `threads`
    have the first byte of its stack, and how far behind that its thread-local data lie."""
    own = Own(stack, size, image, thread_locals(info, tables), mapped(lines))
    for thread, (first, data) in enumerate(threads):
        own.thread(thread, first, data)
    return own.unit(tables), TABLE
