#!/usr/bin/env python3
"""planted.sh [CRATE | CRATE/BUG ..] [--part K/N] [--front | --list]: tries planted/, as the gate tries must-fail/.

It says of each what refused it: a proof, as it must be, and of which functions; the front end, before any proof, so
that the bug shows nothing; a name alone, which the bug took away from a proof file; or nothing. Last it notes that in
planted/tried.tsv (a bug, the day, and what refused it; or a crate, and the day when all of its bugs compiled) and
writes planted/TRIED.md from it; with --list it does this alone. With --part it takes the crates of the Kth of N parts,
which have about as many bugs each.

The libraries below a crate are built first, in the crates' out/, where a check hasn't left them. Crates are tried side
by side, as many as processors and memory hold; RT_JOBS=1 takes one at a time. All of them take hours.

With --front it tries in seconds a crate, and without libraries, only whether the bugs compile: as many at once as fit
beside one another, and where the front end refuses these, half of them, and so on. Then it says nothing of proofs, or
of bugs in specs/ and proofs/.
"""
import collections
import datetime
import os
import re
import shutil
import subprocess
import sys
import tempfile
import threading

import gate

TOP = os.path.dirname(os.path.dirname(os.path.abspath(__file__)))
LIST, KEPT = f"{TOP}/planted/TRIED.md", f"{TOP}/planted/tried.tsv"
MOST = 1000
HEAD = f"""# When the planted bugs were tried

`bench/planted.sh` tries the bugs of this folder, notes in `tried.tsv` what refused each, and writes this list from it.
The gate tries those of the crates' `must-fail` each time; they are not listed here.

At most {MOST:,} lie here. Those stay that a proof refused, since they show what a contract says; of a function of a
public contract without such a one, the most telling that was never tried; and of a crate with few, some of its inner
functions. Others went: a second one of the same function, those whose place is gone, those of crates with far more than
others, and those that no proof refused (a name alone that was taken away, or the front end), which show nothing. Who
adds one tries it.

`Compile` is when all of a crate's bugs were last seen to compile (`--front`).

"""
COLUMNS = ("Crate", "Bugs", "Refused by a proof", "Tried", "Never tried", "What refused the others", "Compile")
PROOF, NAME, FRONT, NOTHING, MISFIT = "a proof", "a name alone", "the front end", "nothing", "it doesn't fit"
UNPROVED = "the crate isn't proved without it"
COMPILES = "compile"


def bugs_of(crate):
    """The names of the crate's bugs in planted/."""
    folder = f"{TOP}/planted/{crate}"
    return sorted(it[:-5] for it in os.listdir(folder) if it.endswith(".edit")) if os.path.isdir(folder) else []


def file_of(crate, bug):
    return f"{TOP}/planted/{crate}/{bug}.edit"


def fared(refused, text, said):
    """What refused a bug, and where, from what rt says of it and what the check printed."""
    functions = re.findall(r"(?m)^fn (\S+): (?:not proved|no proof)", said)
    first = re.search(r"(?m)^(\S+:\d+:\d+): error", said)
    if refused and "only because a proof file names" in text:
        return NAME, first[1] if first else ""
    if refused:
        more = f" and {len(functions) - 3} more" if functions[3:] else ""
        return PROOF, ", ".join(functions[:3]) + more or (first[1] if first else "")
    if "NOT REFUSED" in text:
        return NOTHING, ""
    error = re.search(r"(?m)^.*\berror(?:\[|:).*", said)
    return (FRONT, error[0].strip()[:160]) if said else (MISFIT, text.partition("BAD EDIT: ")[2][:160])


class Tried:
    """Tries bugs, and keeps what became of each: rt gives a verdict of a check, and this what the check printed too."""

    def __init__(self, rt):
        self.rt, self.results = rt, {}
        self.here, self.printing = threading.local(), threading.Lock()
        check = rt.checked

        def checked(crate, texts, flags, kept=None):
            ran = check(crate, texts, flags, kept)
            self.here.said = ran.stdout
            return ran

        rt.checked = checked

    def seeded(self, crate):
        """A folder with what a check of the crate as it stands proved, or none where it isn't proved."""
        room = tempfile.mkdtemp(prefix="planted-")
        os.mkdir(f"{room}/seed")
        if self.rt.checked(crate, {}, ["--jobs", "1"], f"{room}/seed").returncode == 0:
            return room
        shutil.rmtree(room, ignore_errors=True)
        return None

    def one(self, crate, bug, seed):
        """Tries one bug over what a check of the crate as it stands proved."""
        self.here.said, over = "", f"{seed}.{bug}"
        subprocess.run(["cp", "-a", "--reflink=auto", seed, over], check=True)
        try:
            status, text = self.rt.must_fail(crate, file_of(crate.name, bug), ["--jobs", "1"], over)
        finally:
            shutil.rmtree(over, ignore_errors=True)
        # (a verdict, or a word for it, by the version of rt)
        refused = status is True or status in [getattr(self.rt, it, True) for it in ("REFUSED", "AT_LIMIT")]
        self.results[crate.name, bug] = fared(refused, text, self.here.said)

    def crate(self, crate, bugs):
        """Tries these bugs of a crate and prints a line for each."""
        room = self.seeded(crate)
        for it in bugs:
            if room:
                self.one(crate, it, f"{room}/seed")
            else:
                self.results[crate.name, it] = UNPROVED, ""
        shutil.rmtree(room or "", ignore_errors=True)
        with self.printing:
            for it in bugs:
                by, where = self.results[crate.name, it]
                how = {PROOF: "refused by a proof", NOTHING: "NOT REFUSED"}.get(by, f"BAD: refused by {by}")
                how = f"BAD: {by}" if by in (MISFIT, UNPROVED) else how
                print(f"{crate.name}/{it}: {how}{': ' + where if where else ''}", flush=True)


def library(crate):
    """Builds a library where that was not done, and returns whether it is there."""
    with tempfile.TemporaryFile("w+", errors="replace") as crate.out:
        if not crate.build_rlib(["--jobs", "1"], anew=False):
            return True
        crate.out.seek(0)
        print(f"{crate.out.read()[-3000:]}planted.sh: the library {crate.name} isn't proved", flush=True)
        return False


def try_all(rt, wanted):
    """Tries the wanted bugs, by crate, and returns what became of each. A crate waits for the libraries below it."""
    rt.rtlib.guarded()
    crates = rt.rtlib.crates_below(TOP)
    unknown = {*wanted} - {it.name for it in crates}
    if unknown:
        sys.exit(f"planted.sh: no crate {', '.join(sorted(unknown))}")
    named = [it for it in crates if it.name in wanted]
    tried, tasks = Tried(rt), {}

    def bugs(crate):
        tried.crate(crate, wanted[crate.name])

    for it in sorted(crates, key=lambda it: len(it.below())):
        waits, lines, needs = [(below.name, "library") for below in it.below()], it.count(rb"\n"), rt.need(it)

        def over_libraries(given, does, crate=it, waits=waits):
            return all(given[below] for below in waits) and does(crate)

        if any(it in other.below() for other in named):
            tasks[it.name, "library"] = waits, lines, needs, lambda given, _, do=over_libraries: do(given, library)
        if it in named:
            tasks[it.name, "bugs"] = waits, lines, needs, lambda given, _, do=over_libraries: do(given, bugs)
    rt.in_lanes(tasks)
    return tried.results


def is_read(rt, crate, folder):
    """Whether the front end takes the crate of the folder."""
    is_built = all(it.is_built() for it in crate.below())
    words = [rt.rtlib.RATTLE, "check", *crate.words(["--jobs", "1", "--only", ""], as_source=not is_built)]
    how = {"stdin": subprocess.DEVNULL, "stdout": subprocess.PIPE, "stderr": subprocess.STDOUT, "errors": "replace"}
    said = subprocess.run([*rt.rtlib.guarded(), *words], cwd=folder, **how).stdout
    return bool(re.search(r"(?m)^only=", said)) and not re.search(r"(?m)^(\S+:\d+:\d+: )?error(\[|:)", said)


def put_together(rt, crate, bugs, room):
    """Puts the bugs into a copy of the crate, as far as each still fits. Returns those put, and those left."""
    for part in rt.rtlib.PARTS:
        if os.path.isdir(f"{crate.folder}/{part}"):
            shutil.copytree(f"{crate.folder}/{part}", f"{room}/{part}")
    put, left = [], []
    for bug in bugs:
        with open(file_of(crate.name, bug), encoding="utf-8") as file:
            # (a comment may hide others)
            is_comment = any("/*" in line for line in file if line.startswith("new:"))
        texts, why = rt.read_edit(file_of(crate.name, bug), room)
        if why or put and is_comment:
            left.append(bug)
            continue
        put.append(bug)
        for path, text in texts.items():
            with open(f"{room}/{path}", "w", encoding="utf-8") as file:
                file.write(text)
        if is_comment:
            return put, [it for it in bugs if it not in put]
    return put, left


def refused_by_front_end(rt, crate, bugs):
    """The bugs that the front end refuses, or that don't fit."""
    with tempfile.TemporaryDirectory(prefix="planted-") as room:
        put, left = put_together(rt, crate, bugs, room)
        if not put:
            return left
        found = [] if is_read(rt, crate, room) else put
    if len(found) > 1:
        half = len(found) // 2
        found = refused_by_front_end(rt, crate, found[:half]) + refused_by_front_end(rt, crate, found[half:])
    return found + (refused_by_front_end(rt, crate, left) if left else [])


def front(rt, wanted):
    """Prints which of the wanted bugs don't compile, and notes the crates of which all do."""
    rt.rtlib.guarded()
    compiled, bad = {}, 0
    for crate in rt.rtlib.crates_below(TOP):
        if crate.name not in wanted:
            continue
        refused = refused_by_front_end(rt, crate, wanted[crate.name])
        bad += len(refused)
        for it in refused:
            print(f"{crate.name}/{it}: BAD: refused by {FRONT}", flush=True)
        many = len(wanted[crate.name])
        print(f"{crate.name}: {many - len(refused)} of {many} compile", flush=True)
        if not refused and many == len(bugs_of(crate.name)):
            compiled[crate.name] = COMPILES
            note(compiled)
    return int(bad > 0)


def known():
    """What is noted: by bug, as CRATE/BUG, or by crate, the day and what came of it."""
    if not os.path.exists(KEPT):
        return {}
    with open(KEPT) as file:
        return {name: (day, what) for name, day, what in (line.rstrip("\n").split("\t") for line in file)}


def note(found):
    """Notes what came of bugs, or of crates, today, leaves out those that aren't there now, and writes the list."""
    today = datetime.date.today().isoformat()
    noted = {**known(), **{name: (today, what) for name, what in found.items()}}
    crates = [it for it in sorted(os.listdir(f"{TOP}/planted")) if bugs_of(it)]
    there = {*crates, *(f"{crate}/{bug}" for crate in crates for bug in bugs_of(crate))}
    noted = {name: noted[name] for name in sorted(noted) if name in there}
    with open(KEPT, "w") as file:
        file.writelines(f"{name}\t{day}\t{what}\n" for name, (day, what) in noted.items())
    write_list(crates, noted)


def write_list(crates, noted):
    """Writes the list: a row for each crate that has bugs here, and how many there are in all."""
    rows = [row_of(crate, noted) for crate in crates]
    every, refused, never = (sum(row[at] for row in rows) for at in (1, 2, 4))
    with open(LIST, "w") as file:
        file.write(f"{HEAD}In all there are {every}: {refused} were refused by a proof, {never} were never tried.\n\n")
        file.write(f"| {' | '.join(COLUMNS)} |\n|{'---|' * len(COLUMNS)}\n")
        file.writelines(f"| {' | '.join(map(str, row))} |\n".replace("  ", " ") for row in rows)
    if every > MOST:
        print(f"planted.sh: {every} bugs, and at most {MOST} are to lie there", file=sys.stderr)


def row_of(crate, noted):
    """The cells of a crate's row."""
    bugs = bugs_of(crate)
    tried = {it: noted[f"{crate}/{it}"] for it in bugs if f"{crate}/{it}" in noted}
    days = sorted({day for day, _ in tried.values()})
    others = collections.defaultdict(list)
    for it, (_, what) in tried.items():
        if what != PROOF:
            others[what].append(it)
    said = "; ".join(f"{what}: {', '.join(names)}" for what, names in others.items())
    refused = sum(what == PROOF for _, what in tried.values())
    span = " to ".join([*days[:1], *days[1:][-1:]])
    return f"`{crate}`", len(bugs), refused, span, len(bugs) - len(tried), said, noted.get(crate, ("", ""))[0]


def part(crates, which):
    """The crates of one part of several, neighbours in crates.txt, which stand on the same libraries."""
    at, _, of = which.partition("/")
    if not (at.isdigit() and of.isdigit() and 0 < int(at) <= int(of)):
        sys.exit("planted.sh: --part K/N, with K from 1 to N")
    with open(f"{TOP}/crates.txt") as file:
        order = [line.partition(":")[0] for line in file if not line.startswith("#")]
    all_bugs, before, found = sum(len(bugs_of(it)) for it in crates), 0, []
    for crate in [it for it in order if it in crates]:
        if before * int(of) // all_bugs == int(at) - 1:
            found.append(crate)
        before += len(bugs_of(crate))
    return found


def main(words):
    which, is_front, is_list = None, "--front" in words, "--list" in words
    words = [it for it in words if it not in ("--front", "--list")]
    if is_list:
        return note({})
    if "--part" in words:
        at = words.index("--part")
        which, words = "".join(words[at + 1 : at + 2]), words[:at] + words[at + 2 :]
    if any(it.startswith("-") for it in words):
        sys.exit(__doc__)
    wanted = collections.defaultdict(list)
    for word in words or [it for it in sorted(os.listdir(f"{TOP}/planted")) if bugs_of(it)]:
        crate, _, bug = word.partition("/")
        bugs = [it for it in bugs_of(crate) if it == bug or not bug]
        if not bugs:
            sys.exit(f"planted.sh: planted/{word} has no bug")
        wanted[crate] = sorted({*wanted[crate], *bugs})
    if which:
        wanted = {it: wanted[it] for it in part(wanted, which)}
    os.chdir(TOP)
    if is_front:
        return front(gate.rt_module(), wanted)
    results = try_all(gate.rt_module(), wanted)
    note({f"{crate}/{bug}": by for (crate, bug), (by, _) in results.items()})
    many, refused = sum(map(len, wanted.values())), sum(by == PROOF for by, _ in results.values())
    print(f"{refused} of {many} refused by a proof")
    return int(refused < many)


if __name__ == "__main__":
    sys.exit(main(sys.argv[1:]))
