#!/usr/bin/env python3
"""fuzz_debug.py [--seconds N] [--seed S] [--keep FOLDER]: changes the debug sections and names of some modules, and asks
`show`, `races` and `replay` for them: each must end within 10 s of a processor and 1 GB of memory, with a status that is
documented, and print no control characters. What is found is kept with the fewest changes that show it. 1 where something
is. PROGRAM=PATH: the program."""
import os
import re
import subprocess

from fuzzing import DATA, PROGRAM, TOP, Trials

NUMBERS = (0, 1, 2, 3, 4, 8, 0x7f, 0x80, 0xff, 0x100, 0x7fff, 0xffff, 0x10000, 0x7fffffff, 0x80000000, 0xfffffff0, 0xffffffff)


def leb(data, at):
    number, shift = 0, 0
    while True:
        number, shift, byte, at = number | (data[at] & 127) << shift, shift + 7, data[at], at + 1
        if byte < 128:
            return number, at


def sections(data):
    """Of each section of debug information or names where its contents begin and end."""
    at, found = 8, []
    while at < len(data):
        kind, (size, start) = data[at], leb(data, at + 1)
        at = start + size
        if kind == 0:
            length, name = leb(data, start)
            if re.match(rb"\.debug_|name$|wathread\.text$", data[name:name + length]):
                found.append((name + length, at))
    return found


def draw(chance, data, parts):
    """Some edits, each a place and the bytes that take the place of as many."""
    edits = []
    for _ in range(chance.choice((1, 1, 1, 2, 3, 5, 10, 30, 100))):
        start, end = chance.choice(parts)
        at = chance.randrange(start, end)
        some = chance.choice((
            bytes([data[at] ^ 1 << chance.randrange(8)]),
            bytes([chance.choice((0, 1, 0x7f, 0x80, 0xff, 0x0a, 0x1b, chance.randrange(256)))]),
            chance.choice(NUMBERS).to_bytes(4, "little"),
            ((chance.randrange(end - start) + chance.randrange(-2, 3)) % (1 << 32)).to_bytes(4, "little"),
            bytes([0xff] * chance.randrange(1, 10) + [chance.choice((0, 1, 0x0f, 0x7f))]),
            "\u202e\x1b[2J\u2028\x85".encode()[chance.randrange(4):],
            data[start:end][chance.randrange(end - start):][:chance.randrange(1, 40)],
            bytes(chance.randrange(1, 60)),
        ))
        edits.append((at, some[:end - at]))
    return edits


def edited(data, edits):
    made = bytearray(data)
    for at, some in edits:
        made[at:at + len(some)] = some
    return made


def subjects(folder):
    """Modules with debug information, each with a record of a run."""
    names = [f"{TOP}/examples/c/{it}.wasm" for it in ("broken_lock", "full_queue", "lost_wakeup", "torn_read")]
    names += [f"{DATA}/{it}.wasm" for it in ("cc_inlined", "cc_trap", "cc_two_traps", "pool-O0", "counter-dwarf-4",
              "counter-dwarf-5", "kinds-dwarf-5", "queue-dwarf-4", "queue-dwarf-5", "small-dwarf-4", "small-dwarf-5")]
    for module in names:
        record = module[:-4] + "record"
        if not os.path.exists(record):
            record = f"{folder}/{os.path.basename(record)}"
            for name in ("main", "f"):
                words = ["run", module, "--invoke", name, "--record", record, "--limit", "2000"]
                if subprocess.run([PROGRAM, *words], capture_output=True, check=False).returncode in (0, 1):
                    break
            else:
                continue
        with open(module, "rb") as file, open(record, "rb") as text:
            data, lines = file.read(), text.read().count(b"\n")
        yield module, record, data, sections(data), lines


def main():
    trials = Trials(__doc__)
    found, page = list(subjects(trials.path)), f"{trials.path}/page"
    for chance in trials.go_on():
        module, record, data, parts, lines = chance.choice(found)
        edits = draw(chance, data, parts)
        line, address = str(chance.randrange(9, lines + 2)), str(chance.choice((4096, 4176, 4180, 4648, chance.randrange(8192))))
        asked, allowed = chance.choice((
            ([], (0, 5)), (["--json"], (0, 5)), (["--html", page], (0, 5)), (["--trace", page], (0, 5)), (["--at", line], (0, 5)),
            (["--at", "end"], (0, 5)), (["--at", line, "--json"], (0, 5)), (["--at", line, "--raw"], (0, 5)),
            (["--at", "trap"], (0, 3, 5)), (["--addr", "queue.head"], (0, 3, 5)), (["--addr", "sum", "--json"], (0, 3, 5)),
            (["--last-write", address], (0, 5)), (["--source", f"{TOP}/examples/c"], (0, 5)), (["races"], (0, 1, 5)),
            (["races", "--json"], (0, 1, 5)), (["replay", "--explain"], (0, 1, 5)), (["replay", "--json"], (0, 1, 5))))
        if asked[:1] == ["replay"]:
            words = ["replay", "it.wasm", record, *asked[1:]]
        elif asked[:1] == ["races"]:
            words = ["races", "it.wasm", record, *asked[1:]]
        else:
            words = ["show", *chance.choice((["it.wasm", record], [module, record, "--names", "it.wasm"])), *asked]

        def trial(edits):
            with open(f"{trials.path}/it.wasm", "wb") as file:
                file.write(edited(data, edits))
            return trials.run(words, allowed, page if page in words else None)

        status, fault = trial(edits)
        trials.statuses[status] += 1
        if fault:
            trials.find(fault, edits, lambda some: trial(some)[1], words)
    trials.end()


main()
