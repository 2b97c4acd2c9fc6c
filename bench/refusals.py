#!/usr/bin/env python3
"""Writes what `refusals.sh` refuses: refusals.py loop MODULE, or refusals.py unfit RECORD ENTRY END

`loop` is a module that makes as many additions to a shared word as its argument says, and a load. `unfit` makes two records of
one of its runs: in ENTRY the load has got another number, so that no entry fits from there on, and in END the thread has spent
one unit more, so that all entries fit and its end doesn't.
"""
import sys

def section(identifier, contents):
    return bytes([identifier, len(contents)]) + contents


BODY = bytes.fromhex(
    "00"  # no locals
    "0240" "2000450d00"  # block; leave it where no addition is left
    "0340" "4180084101fe1e02001a"  # loop; i32.atomic.rmw.add of 1 at 1024
    "200041016b22000d00" "0b0b"  # one less, and again
    "418008fe100200" "0b"  # i32.atomic.load at 1024
)
LOOP = (
    b"\0asm\x01\0\0\0"
    + section(1, b"\x01\x60\x01\x7f\x01\x7f")  # (i32) -> i32
    + section(2, b"\x01\x03env\x06memory\x02\x03\x01\x01")  # (memory 1 1 shared)
    + section(3, b"\x01\x00")
    + section(7, b"\x01\x03run\x00\x00")
    + section(10, b"\x01" + bytes([len(BODY)]) + BODY)
)


def changed(lines, at, number):
    """The text of the lines, of which one has another last number, or one at this word."""
    words = lines[at].split(" ")
    words[number] = str(int(words[number]) + 1)
    return "\n".join(lines[:at] + [" ".join(words)] + lines[at + 1 :])


def main(what, path, *made):
    if what == "loop":
        open(path, "wb").write(LOOP)
        return
    lines = open(path).read().split("\n")
    load = max(n for n, line in enumerate(lines) if " load " in line)
    end = max(n for n, line in enumerate(lines) if line.startswith("end "))
    open(made[0], "w").write(changed(lines, load, -1))
    open(made[1], "w").write(changed(lines, end, -1))
    print(len(lines) - 1, "lines")


main(*sys.argv[1:])
