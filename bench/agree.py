#!/usr/bin/env python3
"""agree.py [--modules N] [--seed S] [--from I] [--runs R] [--states N] [--program PATH] [--allow] [--channels|--alone]:
whether races of all runs and of one run agree.

`search --all` says `no race` by races of neighbours, and `races` tells those of a run by what happens before what. This
draws N modules of few threads (2,000 where it isn't said; agree_modules.py), from the I-th of seed S on, and asks both:
`search --all --races`, and `search --races` over R drawn runs (1,000), from each run with a race on to those behind it.
It prints each disagreement, with the module's text and the command lines, and keeps the module and the record here as
agree-S-I.wasm and agree-S-I.record. Disagreements are:

- a race in a run of a module of which no run has one, by the other, unless that says that there may be some behind waits
  with a timeout, and it is one: between the two entries a positive timeout ended, since all slept (MEMORY_MODEL.md,
  "What no race is worth");
- a race without a run, or with one of which `races` doesn't tell it;
- what an enumeration of all runs (agree_runs.py), which shares no code with the program, says otherwise: whether two
  threads meet in a race, or one with what was written over, whether some run has one, whether a thread waits with a
  timeout, or that no run has a race of the kind that a drawn run has.

A module with more states than --states (30,000) is left out where nothing is known of its races. The last lines are
counts: of modules by what both say, of disagreements by kind, of states and runs; of those without a race how many have
a run in which two threads touch a byte, not both atomically, one writing, in an order that something gives; and of how
many the drawn runs met each ending. The status is 1 where there is a disagreement. With --channels it asks
the same of modules made by hand (agree_channels.py), and prints what both say. With --alone it asks the enumeration
alone, which has both definitions, and needs no program.

With --allow some races of each drawn module are meant (`--allow-race` and `--allow-mixed` of the program): those to
some bytes that are drawn too, and in a third of the modules those of atomic accesses of different bytes. In half of
them some accesses are made plain before, or get other bytes. What the two definitions are known to say otherwise of
such a module is counted, and no disagreement: a race with what a thread would write by a compare-exchange, where
another one stored over a part of that alone (MEMORY_MODEL.md, "Races that are meant"). The enumeration has the first
definition with such parts, too (agree_runs.py), and only what that has is counted so.
"""
import argparse
import collections
import json
import os
import shutil
import subprocess
import sys
import tempfile

import agree_channels
import agree_modules
import agree_runs

TOP = os.path.dirname(os.path.dirname(os.path.abspath(__file__)))
BUILT = os.environ.get("PROGRAM", os.path.join(TOP, "crates", "wathread", "out", "wathread.by-rattle"))
BEHIND = "only behind timeouts"

# At most so many runs with a race are looked at, of a module of which no run has one by the other.
MOST_FOUND = 12

# So many states of a module are enumerated, which takes a second.
MOST_ENUMERATED = 3000

# The entries of a run: so many at most, since a thread may go round for ever.
LIMIT = "1000"


def answer(words):
    """The object that the program prints with --json; its status says the same."""
    got = subprocess.run([*words, "--json", "--no-explain"], capture_output=True, text=True)
    if got.returncode > 1:
        sys.exit(f"{' '.join(words)}: status {got.returncode}: {got.stdout}{got.stderr}")
    return json.loads(got.stdout)


def words_of(allowed):
    """The program's words for what may race."""
    spans = ",".join(f"{first}-{last}" if first < last else str(first) for first, last in allowed.spans)
    return (["--allow-race", spans] if spans else []) + ["--allow-mixed"] * allowed.mixed


class Module:
    """A drawn module, in a folder, and the words that ask of it."""

    def __init__(self, options, folder, name, kind, bodies, most, allowed=agree_modules.NOTHING):
        self.name, self.kind, self.bodies, self.most, self.allowed = name, kind, bodies, most, allowed
        self.file, self.record = f"{folder}/{name}.wasm", f"{folder}/{name}.record"
        self.options, self.said = options, []
        with open(self.file, "wb") as file:
            file.write(agree_modules.bytes_of(bodies, most))

    def ask(self, command, *words):
        return answer([self.options.program, command, self.file, *words, *words_of(self.allowed)])

    def search(self, *words):
        return self.ask("search", "--invoke", "f", "--jobs", "1", "--limit", LIMIT, *words)

    def in_all_runs(self):
        return self.search("--all", "--races", "--states", str(self.options.states), "--record", self.record)

    def in_drawn_runs(self, first, count):
        drawn = ["--from", str(first), "--runs", str(count), "--seed", "1"]
        return self.search("--races", *drawn, "--record", self.record)

    def pairs(self):
        return self.ask("races", self.record, "--most", "10000")["races"]


# A run, by its record.


def entries_of(record):
    """The entries by their lines: each the thread, the event's words, and what it answered."""
    entries = {}
    with open(record) as file:
        for line, text in enumerate(file, 1):
            if text.startswith("end "):
                return entries
            if line > 8:
                event, reply = text.rstrip("\n").split(" = ")
                thread, *words = event.split(" ")
                entries[line] = (int(thread), words, reply)


def timeouts_in(entries):
    """Where threads hear that their wait ended by its time."""
    asked, ended = {}, []
    for line, (thread, words, reply) in entries.items():
        if words[0] == "told" and words[1] == "2" and thread in asked:
            ended.append(line)
        waits = words[0] == "wait" and reply == words[3] and int(words[4]) > 0
        asked = {**asked, thread: line} if waits else {n: at for n, at in asked.items() if n != thread}
    return ended


def kinds_of(module):
    """Of each race of the kept run, in which no race should be but behind timeouts, the kind."""
    entries = entries_of(module.record)
    for pair in module.pairs():
        first, second = lines_of(pair)
        yield "timeout" if any(first < line < second for line in timeouts_in(entries)) else "race in a run"


# What both say.


def lines_of(pair):
    return pair["first"]["line"], pair["second"]["line"]


def ask_all(module, counts):
    """What is said of all runs: never, only behind timeouts, found, or unknown; and of a race in a run whether that has
    it."""
    said = module.in_all_runs()
    counts["states"] += said["states"]
    if said["races"] != "found":
        return said
    told = said["race"]
    if "first" not in told:
        report(module, counts, "race without a run")
    elif lines_of(told) not in [lines_of(pair) for pair in module.pairs()]:
        report(module, counts, "race that its run hasn't")
    return said


def enumerate_runs(bodies, most, allowed, counts):
    """What all runs come to by an enumeration, or None where they are too many."""
    runs = agree_runs.Runs(bodies, most, MOST_ENUMERATED, allowed)
    try:
        runs.go()
    except agree_runs.TooMany:
        counts["not enumerated"] += 1
        return None
    counts["states, enumerated"] += runs.states
    return runs


def is_known(own):
    """Whether by the enumeration no run has a race but with what was written over in part."""
    return bool(own and own.meet_in_part and not own.meet)


def look_on(module, counts, own):
    """Goes through the drawn runs of a module of which no run has a race: the kinds of races that they have all the
    same, and how many endings the last of them had."""
    first, kinds, met = 1, set(), 0
    for _ in range(MOST_FOUND):
        said = module.in_drawn_runs(first, module.options.runs + 1 - first)
        counts["runs"] += said["runs"]["made"]
        met = len(said["endings"])
        if said["races"] != "found":
            break
        kinds |= set(kinds_of(module))
        if "race in a run" in kinds:
            if not is_known(own):
                report(module, counts, "race in a run")
            break
        first = said["found"]["run"] + 1
        if first > module.options.runs:
            break
    return kinds, met


def report(module, counts, kind):
    counts[f"FOUND: {kind}"] += 1
    print(f"\n{module.name} ({module.kind}): {kind}")
    print(agree_modules.wat_of(module.bodies, module.most))
    program, kept, allowed = module.options.program, module.name, words_of(module.allowed)
    shutil.copy(module.file, f"{kept}.wasm")
    drawn = ["--races", "--runs", module.options.runs, "--limit", LIMIT]
    print(program, "search", f"{kept}.wasm", "--invoke f --all", *allowed)
    print(program, "search", f"{kept}.wasm", "--invoke f", *drawn, *allowed, flush=True)
    if os.path.exists(module.record):
        shutil.copy(module.record, f"{kept}.record")
        print(program, "races", f"{kept}.wasm", f"{kept}.record", *allowed, flush=True)
        subprocess.run([program, "races", module.file, module.record, *allowed])


def judge(module, counts):
    said, own = ask_all(module, counts), enumerate_runs(module.bodies, module.most, module.allowed, counts)
    if said["races"] != "unknown" and own and own.said() != said["races"]:
        report(module, counts, f"races of all runs: {said['races']}, enumerated {own.said()}")
    if said["races"] == "unknown":
        counts["left out"] += 1
    elif said["races"] == "found":
        drawn = module.in_drawn_runs(1, module.options.runs)
        counts["runs"] += drawn["runs"]["made"]
        counts["race by both" if drawn["races"] == "found" else "race by --all and its run, and none drawn"] += 1
    else:
        judge_free(module, counts, said, own)


def judge_free(module, counts, said, own):
    kinds, met = look_on(module, counts, own)
    if is_known(own):
        counts["race with what was written over in part" + ", drawn" * ("race in a run" in kinds)] += 1
        return
    if own and "race" in own.kinds:
        report(module, counts, "race in a run that was enumerated")
    if own and kinds - {"race in a run"} - own.kinds:
        report(module, counts, f"{kinds} in drawn runs, and not enumerated")
    if "timeout" in kinds and said["races"] != BEHIND:
        report(module, counts, f"race behind a timeout, where --all says {said['races']}")
    if kinds:
        counts["only behind timeouts by both"] += 1
        return
    counts["none by both" if said["races"] == "never" else "none drawn, and only behind timeouts by --all"] += 1
    counts[f"none by both, {module.kind}"] += 1
    counts["each ending drawn"] += met == len(said["endings"])
    counts["none by both, though two threads touch a byte"] += bool(own and own.ordered)


def told(race):
    return "-" if race is None else "mixed" if race["mixed"] else "race"


def try_channels(options):
    """The modules made by hand: what both say, and where that is to be otherwise."""
    wrong = 0
    with tempfile.TemporaryDirectory() as folder:
        for name, expected, *bodies in agree_channels.CHANNELS:
            bodies = agree_channels.bodies_of(bodies[0], bodies[1:])
            module = Module(options, folder, "channel", name, bodies, 3)
            said = (told(module.in_all_runs().get("race")), told(module.in_drawn_runs(1, options.runs).get("race")))
            print(f"{'' if said == expected else 'OTHER '}{name}: --all {said[0]}, drawn runs {said[1]}", flush=True)
            if said != expected:
                wrong += 1
                print(agree_modules.wat_of(bodies, 3))
    return int(wrong > 0)


def enumerate_alone(kind, bodies, most, allowed, counts):
    own = enumerate_runs(bodies, most, allowed, counts)
    if own is None:
        return
    meet = own.meet or own.meet_in_part
    if meet != ("race" in own.kinds) or own.kinds and not meet and not own.timed:
        counts["FOUND: race by one definition"] += 1
        print(f"{kind}: threads meet: {own.meet}, in part: {own.meet_in_part}, races: {own.kinds}", *words_of(allowed))
        print(agree_modules.wat_of(bodies, most), flush=True)
    elif is_known(own):
        counts["race with what was written over in part"] += 1
    elif meet:
        counts["race by both"] += 1
    else:
        counts["none by both" if not own.kinds else "none, and one behind a timeout"] += 1
        counts["none by both, though two threads touch a byte"] += own.ordered and not own.kinds
        if allowed != agree_modules.NOTHING and not own.kinds:
            bare = enumerate_runs(bodies, most, agree_modules.NOTHING, collections.Counter())
            counts["none by both, and races if nothing may"] += bool(bare and bare.kinds)


def judge_drawn(options, counts, folder, number):
    kind, bodies, most = agree_modules.draw_module(f"{options.seed} {number}")
    counts[f"drawn, {kind}"] += 1
    allowed = agree_modules.NOTHING
    if options.allow:
        bodies, allowed = agree_modules.draw_allowance(f"{options.seed} {number} allow", bodies)
        counts["drawn, mixed accesses may race"] += allowed.mixed
    if options.alone:
        return enumerate_alone(kind, bodies, most, allowed, counts)
    module = Module(options, folder, f"agree-{options.seed}-{number}", kind, bodies, most, allowed)
    judge(module, counts)
    for path in [module.file, module.record]:
        if os.path.exists(path):
            os.remove(path)


def main():
    words = argparse.ArgumentParser(description=__doc__, formatter_class=argparse.RawDescriptionHelpFormatter)
    for name, default in [("--modules", 2000), ("--seed", 1), ("--runs", 1000), ("--states", 30000), ("--from", 0)]:
        words.add_argument(name, type=int, default=default, dest=name.strip("-") + "_" * (name == "--from"))
    words.add_argument("--program", default=BUILT)
    for name in ["--allow", "--channels", "--alone"]:
        words.add_argument(name, action="store_true")
    options, counts = words.parse_args(), collections.Counter()
    if options.channels:
        return try_channels(options)
    with tempfile.TemporaryDirectory() as folder:
        for number in range(options.from_, options.from_ + options.modules):
            judge_drawn(options, counts, folder, number)
    print(f"{options.modules} modules from {options.from_} on, seed {options.seed}")
    print(*(f"  {counts[name]:,} {name}" for name in sorted(counts)), sep="\n")
    return int(any(name.startswith("FOUND") for name in counts))


if __name__ == "__main__":
    sys.exit(main())
