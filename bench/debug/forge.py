#!/usr/bin/env python3
"""forge.py MODULE FOLDER [BYTES]: writes copies of a module into a folder whose debug sections are forged, of about so many
bytes each (1000000), so that what is asked of them costs as much as it can: `show RECORD --names COPY --at LINE` must end
soon on each."""
import os
import sys

MOST = 0x7fffffff
FUNCTION, BLOCK, INLINED, STRUCT, MEMBER, VARIABLE, ARRAY, DIMENSION, POINTER, BASE, TYPEDEF = \
    0x2e, 0x0b, 0x1d, 0x13, 0x0d, 0x34, 0x01, 0x21, 0x0f, 0x24, 0x16
NAME, SIZE, LINES, LOW, HIGH, COUNT, OFFSET, TYPE, RANGES, FILE, LINE, ENCODING, PLACE = \
    0x03, 0x0b, 0x10, 0x11, 0x12, 0x37, 0x38, 0x49, 0x55, 0x58, 0x59, 0x3e, 0x02
ADDR, DATA4, TEXT, TEXT_AT, REF4, AT, EXPRESSION, CONSTANT, DATA1, PRESENT = \
    0x01, 0x06, 0x08, 0x0e, 0x13, 0x17, 0x18, 0x21, 0x0b, 0x19


def leb(number):
    out = b""
    while number > 127:
        out, number = out + bytes([number & 127 | 128]), number >> 7
    return out + bytes([number])


def four(number):
    return number.to_bytes(4, "little")


def section(name, contents):
    body = leb(len(name)) + name.encode() + contents
    return b"\0" + leb(len(body)) + body


def without_debug(module):
    """The module's sections, but those of debug information."""
    out, at = module[:8], 8
    while at < len(module):
        size, shift, next = 0, 0, at + 1
        while True:
            size, shift, byte, next = size | (module[next] & 127) << shift, shift + 7, module[next], next + 1
            if byte < 128:
                break
        if not (module[at] == 0 and module[next + 1:next + 7] == b".debug"):
            out += module[at:next + size]
        at = next + size
    return out


class Unit:
    """One unit of version 4, whose kinds are numbered as they come."""

    def __init__(self):
        self.kinds, self.abbreviations, self.bytes = {}, b"", bytearray()
        self.add((0x11, True, ((LOW, ADDR), (LINES, AT))), four(0), four(0))

    def at(self):
        """The offset of the next entry in its unit."""
        return 11 + len(self.bytes)

    def add(self, kind, *values):
        """An entry of a kind: its tag, whether it has children, and attributes with their forms (and a constant)."""
        if kind not in self.kinds:
            self.kinds[kind] = len(self.kinds) + 1
            tag, has_children, parts = kind
            self.abbreviations += leb(self.kinds[kind]) + leb(tag) + bytes([has_children])
            for part in parts:
                self.abbreviations += leb(part[0]) + leb(part[1]) + (leb(part[2]) if len(part) > 2 else b"")
            self.abbreviations += b"\0\0"
        where = self.at()
        self.bytes += leb(self.kinds[kind]) + b"".join(values)
        return where

    def close(self, count=1):
        self.bytes += b"\0" * count

    def sections(self, **others):
        contents = (4).to_bytes(2, "little") + four(0) + b"\4" + self.bytes
        made = {"info": four(len(contents)) + contents, "abbrev": self.abbreviations + b"\0", **others}
        return b"".join(section(f".debug_{name}", it) for name, it in made.items())


def function(unit, has_children=True):
    unit.add((FUNCTION, has_children, ((NAME, TEXT), (LOW, ADDR), (HIGH, ADDR))), b"f\0", four(1), four(MOST))


def base(unit):
    return unit.add((BASE, False, ((NAME, TEXT), (SIZE, DATA1), (ENCODING, DATA1))), b"int\0", b"\4", b"\5")


def nested_blocks(size):
    """Blocks within one another, each with all code."""
    unit = Unit()
    function(unit)
    count = size // 10
    for _ in range(count):
        unit.add((BLOCK, True, ((LOW, ADDR), (HIGH, ADDR))), four(1), four(MOST))
    unit.close(count + 2)
    return unit.sections()


def empty_blocks(size):
    """Blocks beside one another, whose one list of ranges is long and has none of the code."""
    unit = Unit()
    function(unit)
    for _ in range(size // 5):
        unit.add((BLOCK, False, ((RANGES, AT),)), four(0))
    unit.close(2)
    return unit.sections(ranges=(four(1) + four(2)) * 4096 + bytes(8))


def inlined_chain(size):
    """Calls within one another, in a file of the greatest number."""
    unit = Unit()
    function(unit)
    for _ in range(4096):
        unit.add((INLINED, True, ((LOW, ADDR), (HIGH, ADDR), (FILE, DATA4), (LINE, DATA1))), four(1), four(MOST),
                 four(7), b"\1")
    unit.close(4098)
    header = b"\1\1\1\0\1\x01" + b"\1\1\x08" + leb(size // 4) + b"\0" * (size // 4)
    header += b"\1\1\x1f" + leb(size // 16) + four(0) * (size // 16)
    lines = (5).to_bytes(2, "little") + b"\4\0" + four(len(header)) + header
    return unit.sections(line=four(len(lines)) + lines, line_str=b"x" * (size // 4) + b"\0")


def structure_of_itself(unit, count):
    """A structure of 4 bytes whose members all begin at its start, and the last of which is the structure itself."""
    inner = base(unit)
    whole = unit.add((STRUCT, True, ((NAME, TEXT), (SIZE, DATA4))), b"s\0", four(4))
    for _ in range(count):
        unit.add((MEMBER, False, ((NAME, TEXT), (TYPE, REF4), (OFFSET, DATA4))), b"m\0", four(inner), four(4))
    unit.add((MEMBER, False, ((NAME, TEXT), (TYPE, REF4), (OFFSET, DATA4))), b"m\0", four(whole), four(0))
    unit.close()
    return whole


def cycle_of_structures(size):
    """Static data over all memory, of a structure that has itself as a member; and variables that point there."""
    unit = Unit()
    whole = structure_of_itself(unit, size // 12)
    array = unit.add((ARRAY, True, ((TYPE, REF4),)), four(whole))
    unit.add((DIMENSION, False, ((COUNT, DATA4),)), four(1 << 29))
    unit.close()
    unit.add((VARIABLE, False, ((NAME, TEXT), (TYPE, REF4), (PLACE, EXPRESSION))), b"all\0", four(array),
             b"\5\x03" + four(4))
    pointer = unit.add((POINTER, False, ((TYPE, REF4),)), four(whole))
    function(unit)
    for n in range(256):
        unit.add((VARIABLE, False, ((NAME, TEXT), (TYPE, REF4), (PLACE, EXPRESSION))), b"p%d\0" % n, four(pointer),
                 b"\5\x03" + four(4188))
    unit.close(2)
    return unit.sections()


def parts_of_parts(size):
    """Variables of a structure that has itself as a member, whose members have long types."""
    unit = Unit()
    whole = structure_of_itself(unit, size // 24)
    for _ in range(64):
        array = unit.add((ARRAY, True, ((TYPE, REF4),)), four(whole))
        for _ in range(16):
            unit.add((DIMENSION, False, ((COUNT, DATA4),)), four(1))
        unit.close()
        whole = array
    function(unit)
    for n in range(size // 48):
        unit.add((VARIABLE, False, ((NAME, TEXT), (TYPE, REF4), (PLACE, EXPRESSION))), b"v%d\0" % n, four(whole),
                 b"\5\x03" + four(1024 + 4 * n))
    unit.close(2)
    return unit.sections()


def cycle_of_types(size):
    """Static data and variables whose types lead round in a circle, behind 60 attributes."""
    unit = Unit()
    many = ((0x99, PRESENT),) * 60
    here = unit.at()
    unit.add((TYPEDEF, False, (*many, (TYPE, REF4))), four(here))
    for n in range(size // 24):
        unit.add((VARIABLE, False, (*many, (NAME, TEXT), (TYPE, REF4), (PLACE, EXPRESSION))), b"s\0", four(here),
                 b"\5\x03" + four(1024 + 4 * n))
    function(unit)
    for n in range(size // 48):
        unit.add((VARIABLE, False, (*many, (NAME, TEXT), (TYPE, REF4), (PLACE, EXPRESSION))), b"v%d\0" % n, four(here),
                 b"\5\x03" + four(1024 + 4 * n))
    unit.close(2)
    return unit.sections()


def long_lists(size):
    """Variables whose one list of places is long and has none of the code."""
    unit = Unit()
    inner = base(unit)
    function(unit)
    for n in range(size // 20):
        unit.add((VARIABLE, False, ((NAME, TEXT), (TYPE, REF4), (PLACE, AT))), b"v%d\0" % n, four(inner), four(0))
    unit.close(2)
    return unit.sections(loc=(four(1) + four(2) + b"\0\0") * 4096 + bytes(8))


def long_names(size):
    """Variables whose names are one long text."""
    unit = Unit()
    inner = base(unit)
    function(unit)
    for _ in range(size // 18):
        unit.add((VARIABLE, False, ((NAME, TEXT_AT), (TYPE, REF4), (PLACE, EXPRESSION))), four(0), four(inner),
                 b"\5\x03" + four(1024))
    unit.close(2)
    return unit.sections(str=b"n" * 4000 + b"\0")


KINDS = [nested_blocks, empty_blocks, inlined_chain, cycle_of_structures, parts_of_parts, cycle_of_types, long_lists,
         long_names]

if __name__ == "__main__":
    plain = without_debug(open(sys.argv[1], "rb").read())
    size = int(sys.argv[3]) if len(sys.argv) > 3 else 1_000_000
    os.makedirs(sys.argv[2], exist_ok=True)
    for kind in KINDS:
        with open(f"{sys.argv[2]}/{kind.__name__}.wasm", "wb") as it:
            it.write(plain + kind(size))
