#!/usr/bin/env python3
"""Writes the threaded examples with 63 spawned threads in place of their three or four, and modules whose starts are measured,
into a folder: crowds.py EXAMPLES CASES FOLDER, where CASES has those in C. Where many wait for one lock, each thread takes it five times."""
import sys


def number(n):
    out = bytearray()
    while True:
        low, n = n & 0x7F, n >> 7
        out.append(low | 0x80 if n else low)
        if not n:
            return bytes(out)


def read_number(data, at):
    value, shift = 0, 0
    while True:
        byte = data[at]
        value, shift, at = value | (byte & 0x7F) << shift, shift + 7, at + 1
        if byte < 0x80:
            return value, at


def sections(data):
    at = 8
    while at < len(data):
        length, start = read_number(data, at + 1)
        yield data[at], data[start : start + length]
        at = start + length


def bodies(contents):
    count, at = read_number(contents, 0)
    for _ in range(count):
        length, start = read_number(contents, at)
        yield contents[start : start + length]
        at = start + length


def with_code(data, change):
    """The module with each body changed."""
    out = data[:8]
    for identifier, contents in sections(data):
        if identifier == 10:
            changed = [change(body) for body in bodies(contents)]
            contents = number(len(changed)) + b"".join(number(len(body)) + body for body in changed)
        out += bytes([identifier]) + number(len(contents)) + contents
    return out


def changed(data, pairs):
    """The module with each of these codes, which stands once in one body, in place of another."""
    found = [sum(body.count(old) for i, c in sections(data) if i == 10 for body in bodies(c)) for old, _ in pairs]
    assert found == [1] * len(pairs), found

    def change(body):
        for old, new in pairs:
            body = body.replace(old, new)
        return body

    return with_code(data, change)


def code(text):
    return bytes.fromhex(text)


SPAWN = code("4100 10001a")
CROWDS = {
    # the four spawns, and how many ends are waited for
    "counting": [(SPAWN * 4, SPAWN * 63), (code("4104 47"), code("413f 47"))],
    # the count of spawns, how many items are taken
    "condition": [(code("4103 490d"), code("413f 490d")), (code("419601 490d"), code("41ce18 490d"))],
    # the count of spawns, how many ends are waited for, the rounds
    "ticket_lock": [(code("4104 490d"), code("413f 490d")), (code("2001 4104 46"), code("2001 413f 46")), (code("41e400 21"), code("4105 21"))],
    "broken_lock": [(code("4103 490d"), code("413f 490d")), (code("2001 4103 46"), code("2001 413f 46")), (code("41c801 21"), code("4105 21"))],
    "c_counter": [(code("4104 470d"), code("413f 470d")), (code("4103 4a"), code("413e 4a")), (code("4104 480d"), code("413f 480d"))],
    "c_ticket_lock": [
        (code("4104 470d"), code("413f 470d")),
        (code("4103 4a"), code("413e 4a")),
        (code("4104 480d"), code("413f 480d")),
        (code("41e400 47"), code("4105 47")),
    ],
    # a bit for each thread that has ended
    "c_one_word_lock": [
        (code("4104 470d"), code("413f 470d")),
        (code("420f 51"), code("42ffffffffffffffffff00 51")),
        (code("420f 52"), code("42ffffffffffffffffff00 52")),
        (code("41e400 47"), code("4105 47")),
    ],
}

HEAD = code("0061736d 01000000")
TYPES = code("010f0360017f017f6000017f60027f7f00")
IMPORTS = b"\x02\x15\x01\x04wasi\x0cthread-spawn\x00\x00"
MEMORY = code("050401030101")
EXPORTS = b"\x07\x19\x02\x01f\x00\x01\x11wasi_thread_start\x00\x02"


def threaded(main):
    """A module whose `f` has this code, and whose threads do nothing."""
    contents = b"\x02" + b"".join(number(len(body)) + body for body in (b"\x00" + main + b"\x0b", b"\x00\x0b"))
    return HEAD + TYPES + IMPORTS + code("0303020102") + MEMORY + EXPORTS + b"\x0a" + number(len(contents)) + contents


def spawns(count):
    return threaded(code("4100 10001a") * count + code("4100"))


STARTS = {
    "sums": threaded(code("41001000") + code("41001000 6a") * 63),
    "none": HEAD + code("010501600001 7f 03020100") + MEMORY + b"\x07\x05\x01\x01f\x00\x00" + code("0a06010400 41000b"),
    "spawns_0": spawns(0),
    "spawns_1": spawns(1),
    "spawns_63": spawns(63),
}

examples, cases, folder = sys.argv[1:]
for name, pairs in CROWDS.items():
    data = open(f"{cases if name.startswith('c_') else examples}/{name}.wasm", "rb").read()
    open(f"{folder}/{name}.wasm", "wb").write(changed(data, pairs))
for name, data in STARTS.items():
    open(f"{folder}/{name}.wasm", "wb").write(data)
