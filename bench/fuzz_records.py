#!/usr/bin/env python3
"""fuzz_records.py [--seconds N] [--seed S] [--keep FOLDER]: changes records, and asks `replay`, `show` and `races` for them:
each must end within 10 s of a processor and 1 GB of memory, with a status that is documented, and print no control
characters; and what one takes all three take. What is found is kept with the fewest changes that show it. 1 where something
is. PROGRAM=PATH: the program."""
import os

from fuzzing import DATA, TOP, Trials

WORDS = (b"load", b"store", b"rmw add", b"cmpxchg", b"wait", b"notify", b"spawn", b"leave", b"told", b"told stop", b"size",
         b"grow", b"done", b"out", b"=", b"ok", b"trap", b"stop", b"-", b"end", b"finish", b"pages", b"args", b"i32:7", b"i64:7")
NUMBERS = (b"0", b"1", b"4", b"8", b"63", b"64", b"65535", b"65536", b"4294967295", b"4294967296", b"9223372036854775807",
           b"18446744073709551615", b"18446744073709551616", b"-1", b"1" * 400, b"00", b"+1")


def draw(chance, count):
    """Some edits of lines: what is done, where, and with which numbers by chance."""
    kinds = ("drop", "twice", "swap", "move", "word", "word", "number", "number", "number", "byte", "insert", "cut", "repeat")
    return [(chance.choice(kinds), chance.randrange(count), chance.randrange(1 << 30), chance.randrange(1 << 30))
            for _ in range(chance.choice((1, 1, 1, 1, 2, 3, 5, 20)))]


def edited(text, edits):
    lines = text.split(b"\n")
    for kind, at, a, b in edits:
        at %= max(1, len(lines))
        if not lines:
            break
        words = lines[at].split(b" ")
        numbers = [i for i, word in enumerate(words) if word.isdigit()]
        if kind == "drop":
            del lines[at]
        elif kind == "twice":
            lines.insert(at, lines[at])
        elif kind == "swap":
            other = a % len(lines)
            lines[at], lines[other] = lines[other], lines[at]
        elif kind == "move":
            lines.insert(a % len(lines), lines.pop(at))
        elif kind == "word":
            words[a % len(words)] = WORDS[b % len(WORDS)]
            lines[at] = b" ".join(words)
        elif kind == "number" and numbers:
            old = words[numbers[a % len(numbers)]]
            near = b"%d" % max(0, int(old[:30]) + b % 5 - 2)
            words[numbers[a % len(numbers)]] = near if b & 8 else NUMBERS[b // 16 % len(NUMBERS)]
            lines[at] = b" ".join(words)
        elif kind == "byte" and lines[at]:
            place = a % len(lines[at])
            lines[at] = lines[at][:place] + bytes([b % 256]) + lines[at][place + 1:]
        elif kind == "insert":
            place = a % (len(lines[at]) + 1)
            lines[at] = lines[at][:place] + (b" ", b"\0", b"\r", b"\x1b[2J", b"\xff", b"\xe2\x80\xae")[b % 6] + lines[at][place:]
        elif kind == "cut":
            lines[at:] = [lines[at][:a % (len(lines[at]) + 1)]]
        elif kind == "repeat":
            lines[at:at] = [lines[at]] * (b % 2000)
    return b"\n".join(lines)


def subjects():
    for folder in (DATA, f"{TOP}/examples", f"{TOP}/examples/c"):
        for name in sorted(os.listdir(folder)):
            module = f"{folder}/{name[:-7]}.wasm"
            if name.endswith(".record") and os.path.exists(module):
                with open(f"{folder}/{name}", "rb") as file:
                    yield module, file.read()


def main():
    trials = Trials(__doc__)
    found, page = list(subjects()), f"{trials.path}/page"
    for chance in trials.go_on():
        module, text = chance.choice(found)
        count = text.count(b"\n") + 1
        edits = draw(chance, count)
        front, allowed = chance.choice((
            (["show"], (0, 4, 5)), (["show", "--json"], (0, 4, 5)), (["show", "--html", page], (0, 4, 5)),
            (["show", "--trace", page], (0, 4, 5)), (["show", "--at", str(chance.randrange(9, count + 2))], (0, 4, 5)),
            (["show", "--at", "end", "--json"], (0, 4, 5)), (["show", "--at", "trap"], (0, 3, 4, 5)),
            (["show", "--unfold", "--explain"], (0, 4, 5)), (["show", "--last-write", "0:100"], (0, 4, 5)),
            (["races"], (0, 1, 4, 5)), (["races", "--json", "--explain"], (0, 1, 4, 5))))
        replay = ["replay", module, "it.record", *chance.choice(([], ["--json"], ["--explain"], ["--units", "--dump", "64"]))]
        other = [front[0], module, "it.record", *front[1:]]

        def trial(edits):
            with open(f"{trials.path}/it.record", "wb") as file:
                file.write(edited(text, edits))
            status, fault = trials.run(replay, (0, 1, 4, 5))
            if fault:
                return status, fault, replay
            second, fault = trials.run(other, allowed, page if page in other else None)
            if not fault and (status == 4) != (second == 4):
                fault = f"status {second}, and that of a replay is {status}"
            return status, fault, other

        status, fault, words = trial(edits)
        trials.statuses[status] += 1
        if fault:
            trials.find(fault, edits, lambda some: trial(some)[1], words)
    trials.end()


main()
