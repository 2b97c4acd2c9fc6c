#!/usr/bin/env python3
"""gate.py [NAME..]: runs the gate, `rt ci`, at the top of the repository, and says at the end what it cost by crate and kind of check, in
seconds of a processor, dearest first: the crate's own proof, the proof of its tests, and the checks with planted bugs (their first, of the
crate as it stands, among them). `gate.py --table FILE..` makes the table of earlier runs' files alone. RT_JOBS is how many crates are
checked at once, JOBS how many functions of each, where it is there.

What `rt ci` kept from earlier runs costs nothing and is no part of the table. Each check is a process, whose time is measured from outside:
rt's words before a command are its own and those of this script, which runs the command and writes a line to the file that it names at first.
"""
import collections
import os
import sys
import tempfile
import time
from importlib import machinery, util

KINDS = ("proof", "tests", "bugs")
ITSELF = os.path.abspath(__file__)


def run_measured(file, words):
    """Runs a command, and adds what it cost to the file: kind, crate, seconds by the clock and of a processor."""
    began, child = time.time(), os.fork()
    if child == 0:
        os.execvp(words[0], words)
    _, status, used = os.wait4(child, 0)
    if "--crate-name" in words:
        kind = "bugs" if "/rt-edit-" in os.getcwd() else "tests" if "--test" in words else "proof"
        crate = words[words.index("--crate-name") + 1]
        with open(file, "a") as to:
            to.write(f"{kind} {crate} {time.time() - began:.1f} {used.ru_utime + used.ru_stime:.1f}\n")
    os._exit(os.waitstatus_to_exitcode(status) & 0xFF)


def rt_module():
    """The toolchain's rt, which is a Python script, as a module."""
    path = os.path.realpath(os.popen("command -v rt").read().strip())
    loader = machinery.SourceFileLoader("rt", path)
    rt = util.module_from_spec(util.spec_from_loader("rt", loader))
    sys.dont_write_bytecode, sys.argv[0], sys.modules["rt"] = True, path, rt
    loader.exec_module(rt)
    return rt


def gate(file, names):
    """Runs rt ci with this script before each command."""
    rt = rt_module()
    before = rt.rtlib.guarded
    rt.rtlib.guarded = lambda: [*before(), sys.executable, ITSELF, "--run", file]
    if "JOBS" in os.environ:
        check = rt.Crate.ci
        rt.Crate.ci = lambda self, flags, *more: check(self, ["--jobs", os.environ["JOBS"]], *more)
    return rt.main(["ci", *names])


def table(files):
    """Prints the seconds of a processor by crate and kind, and the minutes of each kind."""
    spent = collections.defaultdict(collections.Counter)
    for file in files:
        for line in open(file):
            kind, crate, _, seconds = line.split()
            spent[crate][kind] += float(seconds)
    print(f"| Crate | {' | '.join(KINDS)} |\n|---|{'---|' * len(KINDS)}")
    for crate, kinds in sorted(spent.items(), key=lambda it: -sum(it[1].values())):
        print(f"| `{crate}` | {' | '.join(f'{kinds[kind]:.0f}' for kind in KINDS)} |")
    print(", ".join(f"{kind} {sum(it[kind] for it in spent.values()) / 60:.1f} min" for kind in KINDS))


def main(words):
    if words[:1] == ["--run"]:
        run_measured(words[1], words[2:])
    if words[:1] == ["--table"]:
        return table(words[1:])
    file = tempfile.NamedTemporaryFile("w", prefix="gate-", suffix=".times", delete=False).name
    began = time.time()
    status = gate(file, words)
    table([file])
    print(f"{(time.time() - began) / 60:.1f} minutes by the clock; the checks one by one: {file}")
    return status


if __name__ == "__main__":
    sys.exit(main(sys.argv[1:]))
