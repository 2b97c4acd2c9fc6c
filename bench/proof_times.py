#!/usr/bin/env python3
"""proof_times.py [CRATE..]: what the last first check of each crate spent its time on, dearest first.

A check writes what it has proved to crates/NAME/out/incremental, a file for each module of the logic, as it goes. So the time between two
files is what the second one took. It is time by the clock, and means something where the check had one job, as by `rt check --jobs 1` in a
crate without out/, and nothing else ran. Of a function the parts are: Lts, its steps with what is alive at each; Proof, that these keep the
borrow checker's rules and the contract; Goals and Answers, the goals and what is searched or written for them; Tie, that the steps are the
code's.
"""
import collections
import os
import re
import sys

PARTS = "Lts|Proof|Goals|Answers|Tie|Code|Kinds|Reads|Named|Given|View|Layout|Met|Statement|TheLink|Mir|Symbol"
MOST = 60


def files_below(folder):
    """The files of a folder as (time of writing in nanoseconds, name), the earliest first."""
    found = []
    for at, _, names in os.walk(folder):
        found += [(os.stat(f"{at}/{name}").st_mtime_ns, name) for name in names]
    return sorted(it for it in found if it[1].endswith(".oantt"))


def part_of(crate, file):
    """The function, or the module of the logic, that a file is of, and which part of it."""
    name = re.sub(r"(\.decls)?\.oantt$", "", file)
    found = re.match(rf"Rattle-{crate}-(?:proofs|specs)\.(.*)\.({PARTS})$", name)
    return (found[1], found[2]) if found else (name, "")


def seconds_of(top, crate):
    """Seconds by function and part."""
    spent = collections.defaultdict(collections.Counter)
    files = files_below(f"{top}/crates/{crate}/out/incremental")
    for (before, _), (after, file) in zip(files, files[1:]):
        function, part = part_of(crate, file)
        spent[function][part] += (after - before) / 1e9
    return spent


def main():
    top = os.path.dirname(os.path.dirname(os.path.abspath(__file__)))
    crates = sys.argv[1:] or sorted(os.listdir(f"{top}/crates"))
    rows, by_part = [], collections.Counter()
    for crate in crates:
        for function, parts in seconds_of(top, crate).items():
            rows.append((sum(parts.values()), crate, function, parts))
            by_part.update(parts)
    print(", ".join(f"{part or 'rest'} {seconds:.0f} s" for part, seconds in by_part.most_common(8)))
    for seconds, crate, function, parts in sorted(rows, key=lambda it: -it[0])[:MOST]:
        dearest = ", ".join(f"{part} {of:.1f}" for part, of in parts.most_common(3) if part)
        print(f"{seconds:7.1f}  {crate} {function}  {dearest}")


if __name__ == "__main__":
    main()
