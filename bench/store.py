#!/usr/bin/env python3
"""Checks crates as the gate does, each once: what is proved is kept by a sum of all that the check read, and taken from
there by every work tree of this machine. For work in several trees, and for a gate in parts; the gate itself is `rt ci`.

    store.py build [CRATE..]     proves crates and the libraries below them from nothing (no name: all)
    store.py all [CRATE..]       the same, and their tests
    store.py below CRATE..       the libraries below crates alone
    store.py edits CRATE..       tries must-fail edits
    store.py runs [CRATE..]      runs proved programs and tests, as the gate does
    store.py missing             what of this tree isn't in the store, after its libraries are put in place
    store.py gate                rt ci, over the store
    store.py rt check|test .. ARGS   in a crate's folder: rt's own command, over libraries from the store

A key is made of the kit, the crate's src, specs and proofs, its line of crates.txt, and the contents of each library
below. At most STORE_SLOTS checks (4) run at once on the machine, first come, first served; STORE_FIRST=1 goes ahead. Two
of these in one tree disturb each other: use one work tree each. With STORE_LAST=1 a check waits for all others. STORE is
the folder of the store (/tmp/wathread-store), and STORE_JOBS="report=4 cases=3" has several jobs for some crates. It
goes by rt's own functions, so it fits the kit that it was written for.
"""
import copy
import fcntl
import hashlib
import importlib.machinery
import importlib.util
import io
import json
import os
import shutil
import subprocess
import sys
import tempfile
import threading
import time
from concurrent.futures import FIRST_COMPLETED, ThreadPoolExecutor, wait

sys.dont_write_bytecode = True
STORE = os.environ.get("STORE", "/tmp/wathread-store")
SLOTS = int(os.environ.get("STORE_SLOTS", "4"))
JOBS = dict(it.split("=") for it in os.environ.get("STORE_JOBS", "").split())
for part in ("slots", "queue", "locks", "kept", "failed"):
    os.makedirs(f"{STORE}/{part}", exist_ok=True)


def load_rt():
    loader = importlib.machinery.SourceFileLoader("rt", "/opt/rattle/bin/rt")
    made = importlib.util.module_from_spec(importlib.util.spec_from_loader("rt", loader))
    sys.modules["rt"] = made
    loader.exec_module(made)
    return made


rt = load_rt()
rtlib = rt.rtlib
local = threading.local()


class Slot:
    """One of the machine's slots. A thread that has one gets no second."""

    def __enter__(self):
        self.depth = getattr(local, "depth", 0)
        local.depth = self.depth + 1
        if not self.depth:
            self.file = self.wait()
        return self

    def wait(self):
        since = 0 if os.environ.get("STORE_FIRST") else time.time() + (10**9 if os.environ.get("STORE_LAST") else 0)
        ticket = f"{since:020.6f}-{os.getpid()}-{threading.get_ident()}"
        open(f"{STORE}/queue/{ticket}", "w").close()
        try:
            while True:
                with open(f"{STORE}/queue.lock", "w") as whole:
                    fcntl.flock(whole, fcntl.LOCK_EX)
                    file = self.take(ticket)
                if file:
                    return file
                time.sleep(0.3)
        finally:
            os.remove(f"{STORE}/queue/{ticket}")

    def take(self, ticket):
        """A free slot, if there is one for each older ticket too."""
        ahead = 0
        for name in sorted(os.listdir(f"{STORE}/queue")):
            if name == ticket:
                break
            if os.path.isdir(f"/proc/{name.split('-')[1]}"):
                ahead += 1
            else:
                os.remove(f"{STORE}/queue/{name}")
        for n in range(SLOTS):
            file = open(f"{STORE}/slots/{n}", "w")
            try:
                fcntl.flock(file, fcntl.LOCK_EX | fcntl.LOCK_NB)
            except OSError:
                file.close()
                continue
            if not ahead:
                return file
            ahead -= 1
            file.close()
        return None

    def __exit__(self, *_):
        local.depth = self.depth
        if not self.depth:
            self.file.close()


def sum_of(folder):
    found = hashlib.sha256()
    for at, folders, files in sorted(os.walk(folder)):
        folders.sort()
        for name in sorted(files):
            path = f"{at}/{name}"
            with open(path, "rb") as it:
                whole = hashlib.sha256(it.read()).hexdigest()
            found.update(repr((os.path.relpath(path, folder), whole)).encode())
    return found.hexdigest()


def own_sum(crate):
    return [sum_of(f"{crate.folder}/{part}") for part in ("src", "specs", "proofs")]


def sum_of_library(crate):
    """The sum of the library that lies in the crate's out/, if this made it."""
    try:
        with open(f"{crate.folder}/out/rlib/sum") as it:
            return it.read().split()[1]
    except (OSError, IndexError):
        return None


def key_of(crate, kind, more=""):
    below = sorted((it.name, sum_of_library(it)) for it in crate.below())
    if any(sum is None for _, sum in below):
        return None
    said = sorted((key, str(value)) for key, value in crate.said.items() if key not in ("args", "status"))
    with open(f"{rt.KIT}/KIT-ID") as kit:
        whole = (kit.read(), kind, crate.name, sorted(crate.of_kit), said, own_sum(crate), below, more)
    return hashlib.sha256(repr(whole).encode()).hexdigest()[:24]


def outputs(crate, kind):
    if kind == "tests":
        return [f"{crate.name}_tests"]
    return [crate.name, f"{crate.name}.by-rattle"] if crate.is_program else ["rlib"]


def restore(crate, kind, kept):
    out = f"{crate.folder}/out"
    os.makedirs(out, exist_ok=True)
    for name in outputs(crate, kind):
        rt.clear(f"{out}/{name}")
        if os.path.exists(f"{kept}/{name}"):
            subprocess.run(["cp", "-a", f"{kept}/{name}", out], check=True)


def keep(crate, kind, kept, key, said):
    out = f"{crate.folder}/out"
    if kind == "proof" and os.path.isdir(f"{out}/rlib"):
        sum = sum_of(crate.rlib)
        with open(f"{out}/rlib/sum", "w") as it:
            it.write(f"{key} {sum}")
    part = f"{kept}.{os.getpid()}.{threading.get_ident()}"
    os.makedirs(part)
    for name in outputs(crate, kind):
        if os.path.exists(f"{out}/{name}"):
            subprocess.run(["cp", "-a", f"{out}/{name}", part], check=True)
    with open(f"{part}/log", "w") as it:
        it.write(said)
    open(f"{part}/ok", "w").close()
    rt.clear(kept)
    os.rename(part, kept)


def checked_once(crate, kind, check):
    """Takes a check's outcome from the store, or makes the check and keeps it where it is well. Answers the status."""
    key = key_of(crate, kind)
    if key is None:
        print("a library below isn't built", file=crate.out)
        return 1
    kept = f"{STORE}/kept/{crate.name}-{key}"
    with open(f"{STORE}/locks/{key}", "w") as lock:
        if not os.path.isfile(f"{kept}/ok"):
            fcntl.flock(lock, fcntl.LOCK_EX)
        if os.path.isfile(f"{kept}/ok"):
            restore(crate, kind, kept)
            return 0
        with Slot():
            os.makedirs(f"{crate.folder}/out", exist_ok=True)
            began, own, out = time.time(), own_sum(crate), crate.out
            with tempfile.TemporaryFile("w+", errors="replace") as crate.out:
                try:
                    status = check()
                finally:
                    crate.out.seek(0)
                    said = crate.out.read()
                    crate.out = out
            out.write(said)
            if status == 0 and own == own_sum(crate):
                keep(crate, kind, kept, key, said)
            else:
                with open(f"{STORE}/failed/{crate.name}.{kind}", "w") as it:
                    it.write(f"{crate.folder}\n{said}")
            with open(f"{STORE}/times", "a") as it:
                it.write(f"{time.strftime('%H:%M:%S')} {crate.name} {kind} {status} {time.time() - began:.0f} s\n")
            return status


check_from_nothing = rt.Crate.ci
try_edits = rt.must_fail_all
build_library = rtlib.Crate.build_rlib


def ci(crate, flags, tests):
    return checked_once(crate, "tests" if tests else "proof", lambda: check_from_nothing(crate, flags, tests))


def must_fail_all(crate, edits, flags):
    if not edits:
        return []
    texts = [(os.path.basename(it), open(it).read()) for it in edits]
    key = key_of(crate, "edits", repr(texts))
    kept = f"{STORE}/kept/{crate.name}-{key}.json"
    if key and os.path.isfile(kept):
        return [tuple(it) for it in json.load(open(kept))]
    with Slot():
        found = try_edits(crate, edits, flags)
    if key and all(refused for refused, _ in found):
        with open(kept, "w") as it:
            json.dump(found, it)
    return found


def build_rlib(crate, flags, anew):
    if anew:
        return build_library(crate, flags, True)
    made = copy.copy(crate)
    made.__class__ = rt.Crate
    return checked_once(made, "proof", lambda: check_from_nothing(made, ["--jobs", "1"], False))


def is_built(crate):
    try:
        with open(f"{crate.folder}/out/rlib/sum") as it:
            return it.read().split()[0] == key_of(crate, "proof")
    except (OSError, IndexError):
        return False


STAMPS, BELOW = {}, {}
stamp_along_paths, below_along_paths = rtlib.Crate.stamp, rtlib.Crate.below


def stamp(crate):
    """rt goes down each path of crates.txt, of which the program has 100,000; each crate once is enough."""
    if crate.folder not in STAMPS:
        STAMPS[crate.folder] = stamp_along_paths(crate)
    return STAMPS[crate.folder]


def below(crate):
    if crate.folder not in BELOW:
        BELOW[crate.folder] = below_along_paths(crate)
    return BELOW[crate.folder]


rtlib.Crate.stamp, rtlib.Crate.below = stamp, below
rt.Crate.ci, rt.must_fail_all = ci, must_fail_all
rtlib.Crate.build_rlib, rtlib.Crate.is_built = build_rlib, is_built
# (as in the gate: libraries keep their statements alone)
rtlib.Crate.cuts_libraries = True


def crates_at(root):
    os.chdir(root)
    rtlib.guarded()
    rt.Crate.allowed = rt.handles_of(root)
    found = rtlib.crates_below(root)
    for crate in found:
        crate.__class__ = rt.Crate
        rt.read_files(crate)
    return {crate.name: crate for crate in found}


def tasks_for(crates, verb, names):
    """The checks that are wanted, each with those that it waits for."""
    tasks = {}

    def add(crate, kind):
        for it in crate.below():
            if (it.name, "proof") not in tasks:
                add(crates[it.name], "proof")
        tasks[crate.name, kind] = [(it.name, "proof") for it in crate.below()]

    for name in names or crates:
        crate = crates[name]
        if verb == "below":
            for it in crate.below():
                add(crates[it.name], "proof")
            continue
        add(crate, "proof")
        if verb == "all" and crate.has_tests():
            add(crate, "tests")
    return tasks


def run_tasks(crates, tasks):
    """Makes checks side by side, first those with the longest chain of others behind them."""
    behind = {}
    for key in reversed([*tasks]):
        behind[key] = behind.get(key, 0) + crates[key[0]].count(rb"\n")
        for it in tasks[key]:
            behind[it] = max(behind.get(it, 0), behind[key])

    def check(key):
        crate = copy.copy(crates[key[0]])
        with tempfile.TemporaryFile("w+", errors="replace") as crate.out:
            try:
                status = crate.ci(["--jobs", JOBS.get(crate.name, "1")], key[1] == "tests")
            except SystemExit:
                status = 2
            crate.out.seek(0)
            return status, crate.out.read()

    left, running, well, failed = sorted(tasks, key=lambda it: -behind[it]), {}, set(), []
    with ThreadPoolExecutor(SLOTS) as pool:
        while left or running:
            for key in [it for it in left if all(below in well for below in tasks[it])][: SLOTS - len(running)]:
                left.remove(key)
                running[pool.submit(check, key)] = key
            if not running:
                break
            for it in wait(running, return_when=FIRST_COMPLETED).done:
                key, (status, said) = running.pop(it), it.result()
                if status:
                    failed.append(key)
                    print(f"== {key[0]} ({key[1]})", *said.split("\n")[-40:], sep="\n", flush=True)
                else:
                    well.add(key)
    print(f"{len(well)} well, failed: {failed}, not tried: {left}")
    return 1 if failed or left else 0


def edits(crates, names):
    def one(name):
        crate = crates[name]
        for _, said in must_fail_all(crate, rt.edits_of(crate)[0], ["--jobs", "1"]):
            print(said, flush=True)

    with ThreadPoolExecutor(SLOTS) as pool:
        list(pool.map(one, names))
    return 0


def runs(crates, names):
    bad = []
    for crate in [crates[it] for it in names or crates]:
        for tests in (False, True):
            if not (crate.has_tests() if tests else crate.is_program):
                continue
            kind = "tests" if tests else "proof"
            kept = f"{STORE}/kept/{crate.name}-{key_of(crate, kind)}"
            if not os.path.isfile(f"{kept}/ok"):
                bad.append((crate.name, kind, "isn't proved"))
                continue
            restore(crate, kind, kept)
            for ending in [""] if tests else rt.BACKENDS.values():
                made = f"{crate.folder}/out/{outputs(crate, kind)[0]}{ending}"
                if os.path.isfile(made) and not rt.run(crate, tests, ending):
                    bad.append((crate.name, kind, ending))
    print(f"bad: {bad}")
    return 1 if bad else 0


def missing(crates):
    lacking = {"proof": [], "tests": [], "edits": []}
    tasks = tasks_for(crates, "build", [])
    for name, _ in sorted(tasks, key=lambda it: len(crates[it[0]].below())):
        crate = crates[name]
        texts = [(os.path.basename(it), open(it).read()) for it in rt.edits_of(crate)[0]]
        for kind, is_wanted in (("proof", True), ("tests", crate.has_tests()), ("edits", bool(texts))):
            key = key_of(crate, kind, repr(texts) if kind == "edits" else "")
            kept = f"{STORE}/kept/{name}-{key}{'.json' if kind == 'edits' else '/ok'}"
            if is_wanted and not (key and os.path.isfile(kept)):
                lacking[kind].append(name)
            elif kind == "proof" and not crate.is_program and not is_built(crate):
                restore(crate, kind, os.path.dirname(kept))
    for kind, names in lacking.items():
        print(kind, *names)
    return 0


def main(verb="", *names):
    root = subprocess.run(["git", "rev-parse", "--show-toplevel"], capture_output=True, text=True).stdout.strip()
    here = os.path.basename(os.getcwd())
    if verb in ("build", "all", "below"):
        crates = crates_at(root)
        return run_tasks(crates, tasks_for(crates, verb, names))
    if verb in ("edits", "runs"):
        return {"edits": edits, "runs": runs}[verb](crates_at(root), names)
    if verb == "missing":
        return missing(crates_at(root))
    if verb == "gate":
        os.chdir(root)
        return rt.ci()
    if verb == "rt" and names:
        crates = crates_at(root)
        status = run_tasks(crates, tasks_for(crates, "below", [here]))
        os.chdir(f"{root}/crates/{here}")
        names = [*names, "--jobs", "1"] if names[0] == "check" and "--jobs" not in names else names
        with Slot():
            return status or rt.main([*names])
    print(__doc__)
    return 2


if __name__ == "__main__":
    sys.exit(main(*sys.argv[1:]))
