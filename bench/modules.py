#!/usr/bin/env python3
"""Writes a module of nearly 1 MiB, for benchmarks of reading and validating: `functions` has 10,000 small functions, `blocks` has
15 of nearly 64 KiB each, whose code is blocks with a branch out of each, `nops` 16 of nearly 64 KiB, whose code is hardly
anything but `nop`, so that there are as many instructions as can be. `late` has 992 KB of functions like those of `functions`,
the last of which drops its result, so that the module is refused at its end. With a third word the first function is exported
under it."""
import sys


def number(n):
    out = bytearray()
    while True:
        low, n = n & 0x7F, n >> 7
        out.append(low | 0x80 if n else low)
        if not n:
            return bytes(out)


def section(identifier, contents):
    return bytes([identifier]) + number(len(contents)) + contents


def small(steps=7):
    # local.get 0; then constants, additions and stores of an i32 in turn
    code = b"\x20\x00"
    for k in range(steps):
        code += b"\x41" + bytes([k]) + b"\x6a" + b"\x22\x01" + b"\x1a" + b"\x20\x01" + b"\x20\x00" + b"\x71"
    return b"\x01\x01\x7f" + code + b"\x0b"


def blocks():
    # block; local.get 0; i32.const 7; i32.add; local.tee 0; i32.eqz; br_if 0; end
    step = b"\x02\x40\x20\x00\x41\x07\x6a\x22\x00\x45\x0d\x00\x0b"
    return b"\x00" + step * 5000 + b"\x20\x00\x0b"


def nops():
    # local.get 0; end
    return b"\x00" + b"\x01" * 65520 + b"\x20\x00\x0b"


kind = sys.argv[1]
count, body = {
    "functions": (10000, small()),
    "blocks": (15, blocks()),
    "nops": (16, nops()),
    "late": (992_000 // (len(small(9)) + 2), small(9)),
}[kind]
last = body[:-1] + b"\x1a\x0b" if kind == "late" else body
module = b"\0asm\x01\0\0\0"
module += section(1, number(1) + b"\x60\x01\x7f\x01\x7f")
module += section(3, number(count) + b"\x00" * count)
if len(sys.argv) > 3:
    name = sys.argv[3].encode()
    module += section(7, number(1) + number(len(name)) + name + b"\0\0")
module += section(10, number(count) + (number(len(body)) + body) * (count - 1) + number(len(last)) + last)
open(sys.argv[2], "wb").write(module)
print(len(module), "bytes,", count, "functions")
