#!/usr/bin/env python3
"""races.py [--all]: short histories and their races, as cases.

    python3 bench/races.py > crates/cases/data/all_races.cases

It makes all histories of some entries behind the spawns that the wait queue allows, of two or three threads, and judges
them by the definition of a race, written down plainly: the order of entries is the transitive closure of a table. It
prints a line for each that has races or is of the greatest length: the history's words, an arrow, and the pairs of
places that are to be named, by the second one. With --all they are of one entry more.

A word is the thread's digit, a letter, for most letters the address and the width, and the digit of the place in the
code where that isn't 0: l and s load and store, L and S atomically, r reads, modifies and writes, c is a
compare-exchange that stores and d one that doesn't, o stores out of bounds, w waits, n notifies as many as the last
digit says, p spawns, t takes an answer, the number of which is the last digit. m asks for the number of pages, g grows
the memory and f is refused to. The line `opening 8` says how many bytes the pages have with which the memory opens.
"""
import itertools
import sys


def accesses(word, opening):
    """What a word does: of each access the thread, location, first byte, width, reads, writes, atomic, place in code."""
    n, letter = int(word[0]), word[1]
    first, width, code = (int(digit) for digit in (word[2:] + "000")[:3])
    made = []
    if letter in "lsLSrcdw":
        made.append((n, "bytes", first, width, letter not in "sS", letter in "sSrc", letter in "LSrcdw", code))
    if letter in "wn":
        made.append((n, "waiters", first, 1, True, True, True, 0))
    if letter == "p":
        made.append((n, "threads", 0, 1, True, True, True, 0))
    if letter in "mgf":
        made.append((n, "pages", 0, 1, True, letter == "g", True, 0))
    end = first + (4 if letter == "n" else width)
    if letter in "lsLSrcdwno" and end > opening:
        made.append((n, "pages", 0, 1, True, False, False, 0))
    return made


def touch(a, b):
    """Whether two accesses have a byte of one location in common."""
    return a[1] == b[1] and a[2] < b[2] + b[3] and b[2] < a[2] + a[3]


def are_matched(a, b):
    return a[6] and b[6] and a[1:4] == b[1:4]


def walk(words):
    """Of each place: whom a notify wakes, and which thread a spawn starts. None where the queue doesn't allow it."""
    alive, sleepers, due, started = [0], [], {}, 0
    wakes, starts = {}, {}
    for place, word in enumerate(words):
        n, letter = int(word[0]), word[1]
        free = n in alive and n not in due and n not in [s[0] for s in sleepers]
        if letter == "t":
            if due.pop(n, None) != int(word[3]):
                return None
            continue
        if not free:
            return None
        if letter == "w":
            sleepers.append((n, int(word[2])))
        elif letter == "n":
            woken = [s for s in sleepers if s[1] == int(word[2])][: int(word[3])]
            sleepers = [s for s in sleepers if s not in woken]
            wakes[place] = {s[0] for s in woken}
            due.update({s[0]: 0 for s in woken})
            due[n] = len(woken)
        elif letter == "p":
            started += 1
            starts[place] = started
            alive.append(started)
            due[n] = started
        if all(m in [s[0] for s in sleepers] for m in alive):
            return None
    return wakes, starts


def is_edge(words, made, wakes, starts, i, j):
    n, m = int(words[i][0]), int(words[j][0])
    if n == m or starts.get(i) == m:
        return True
    for a, b in itertools.product(made[i], made[j]):
        if a[5] and b[4] and are_matched(a, b):
            between = itertools.chain(*made[i + 1:j])
            if not any(c[5] and touch(c, b) for c in between):
                return True
    told = [k for k in range(i + 1, len(words)) if words[k][0] == words[j][0] and words[k][1] == "t"]
    return m in wakes.get(i, ()) and told[:1] == [j]


def races(words, opening):
    """The races that are to be named, or None where the history can't be."""
    walked = walk(words)
    if walked is None:
        return None
    wakes, starts = walked
    size = len(words)
    made = [accesses(word, opening) for word in words]
    before = [[i < j and is_edge(words, made, wakes, starts, i, j) for j in range(size)] for i in range(size)]
    for k, i, j in itertools.product(range(size), repeat=3):
        before[i][j] |= before[i][k] and before[k][j]
    named = []
    for j in range(size):
        lasts = {}
        for i in range(j):
            for a, b in itertools.product(made[i], made[j]):
                if a[0] != b[0] and touch(a, b) and (a[5] or b[5]) and not are_matched(a, b) and not before[i][j]:
                    lasts[a] = i
        named += [(i, j) for i in sorted(set(lasts.values()))]
    return named


FAMILIES = [
    ("a plain range, and a flag of one range",
     None, ["0p00", "0t01"], ["0s04", "0l04", "0S44", "0L44", "1s04", "1l04", "1S44", "1L44", "1r44"], 3),
    ("a word, its halves and a byte, plain and atomic",
     None, ["0p00", "0t01"], ["0s08", "0S04", "0l44", "1S08", "1l04", "1r04", "1s11"], 3),
    ("compare-exchanges that store, and that don't",
     None, ["0p00", "0t01"], ["0s04", "0S84", "0c84", "0d84", "1d84", "1c84", "1s04"], 3),
    ("waits and notifies",
     None, ["0p00", "0t01"], ["1w84", "0s04", "0n81", "0t01", "1t00", "1l04", "0t00"], 5),
    ("three threads",
     None, ["0p00", "0t01", "0p00", "0t02"], ["1s04", "1S84", "2r84", "2S84", "0L84", "0l04", "2l04"], 4),
    ("the number of pages",
     8, ["0p00", "0t01"], ["0g", "0s84", "0f", "1g", "1m", "1f", "1l84", "1o84", "1l44"], 3),
    ("lists of waiters, of two addresses",
     None, ["0p00", "0t01"], ["0s04", "0n81", "0n41", "0t00", "1n81", "1t00", "1l04"], 5),
    ("a bounds check of a wait and of a notify",
     8, ["0p00", "0t01"], ["1w84", "0g", "0n81", "0n41", "0t01", "0t00", "1t00"], 4),
    ("spawns of two threads",
     None, ["0p00", "0t01"], ["0s04", "0p00", "0t02", "0t03", "1p00", "1t02", "1l04", "2l04"], 5),
    ("places in the code",
     None, ["0p00", "0t01"], ["0s041", "0s042", "0S44", "1l041", "1l042", "1L44"], 4),
]


def main():
    print("All histories of some entries, made by bench/races.py.\n")
    for title, opening, first, words, most in FAMILIES:
        print("==", title)
        if opening is not None:
            print("opening", opening)
        most += "--all" in sys.argv
        for count in range(1, most + 1):
            for more in itertools.product(words, repeat=count):
                history = first + list(more)
                named = races(history, 65536 if opening is None else opening)
                if named is not None and (named or count == most):
                    print(" ".join(["races", *history, "=>", *(f"{i}-{j}" for i, j in named)]))


if __name__ == "__main__":
    sys.exit(main())
