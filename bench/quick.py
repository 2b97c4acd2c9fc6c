#!/usr/bin/env python3
"""Checks one crate while it is written, over libraries that a gate built in another work tree of this machine, so that
nothing below it is proved again. No verdict rests on it: the gate is `rt ci`.

    quick.py TREE check CRATE [flags of rattle check]    proves it, over what its last check kept in out/quick
    quick.py TREE build CRATE                            the same, and builds its library for the crates above

GATES names, with colons, the trees whose libraries are taken for crates that are textually the same in TREE: above all
one that keep.py fills while a gate runs.
"""
import importlib.machinery
import importlib.util
import os
import shutil
import subprocess
import sys

sys.dont_write_bytecode = True


def kit():
    """Returns rt's own library of functions."""
    rt = os.path.dirname(subprocess.run(["rt", "doc"], capture_output=True, text=True, check=True).stdout.strip())
    loader = importlib.machinery.SourceFileLoader("rtlib", f"{rt}/bin/rtlib.py")
    made = importlib.util.module_from_spec(importlib.util.spec_from_loader("rtlib", loader))
    sys.modules["rtlib"] = made
    loader.exec_module(made)
    return made


def are_same(one, other):
    """Whether two folders of a crate have the same text."""
    words = ["diff", "-rq", "--exclude=out", "--exclude=must-fail", "--exclude=data", one, other]
    return subprocess.run(words, stdout=subprocess.DEVNULL).returncode == 0


def take(crate, gates):
    """Takes the library of a crate from the first tree that has it, and says whether one has."""
    for gate in gates:
        at = f"{gate}/crates/{crate.name}"
        if os.path.isfile(f"{at}/out/rlib/{crate.name}.rlib/format") and are_same(crate.folder, at):
            os.makedirs(os.path.dirname(crate.rlib), exist_ok=True)
            subprocess.run(["cp", "-r", f"{at}/out/rlib/{crate.name}.rlib", crate.rlib], check=True)
            return True
    return False


def main(tree, what, name, *flags):
    os.chdir(tree)
    rtlib = kit()
    crate = {it.name: it for it in rtlib.crates_below(os.getcwd())}[name]
    gates = [it for it in os.environ.get("GATES", "").split(":") if it]
    lacking = [it.name for it in crate.below() if not os.path.isdir(it.rlib) and not take(it, gates)]
    if lacking:
        sys.exit(f"no tree of GATES has a library of: {' '.join(lacking)}")
    rtlib.Crate.has_kept = lambda self: True
    words = crate.words([*flags, "--jobs", os.environ.get("JOBS", "1")], keeps=False)
    words = [rtlib.RATTLE, what, *words, "--incremental", "out/quick"]
    os.makedirs(f"{crate.folder}/out", exist_ok=True)
    if what == "build":
        shutil.rmtree(os.path.dirname(crate.rlib), ignore_errors=True)
        os.makedirs(os.path.dirname(crate.rlib))
        words += ["-o", crate.rlib]
    else:
        words.append("--progress")
    sys.exit(subprocess.run(words, cwd=crate.folder).returncode)


if __name__ == "__main__":
    if len(sys.argv) < 4:
        sys.exit(__doc__)
    main(*sys.argv[1:])
