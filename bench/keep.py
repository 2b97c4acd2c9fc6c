#!/usr/bin/env python3
"""keep.py TREE INTO: keeps the libraries that running gates have built, of crates that are textually the same in TREE, below
INTO, where quick.py takes them (GATES=INTO); and the programs `wathread` and `cases` in INTO/out. It goes on until it is ended:
a gate works on a copy of its tree, which goes when it ends.
"""
import glob
import os
import shutil
import subprocess
import sys
import time

LEFT_OUT = ("out", "must-fail", "data")
PAUSE = 15


def are_same(one, other):
    """Whether two folders of a crate have the same text."""
    words = ["diff", "-rq", *(f"--exclude={name}" for name in LEFT_OUT), one, other]
    return subprocess.run(words, stdout=subprocess.DEVNULL, stderr=subprocess.DEVNULL).returncode == 0


def keep(crate, library, tree, into):
    """Keeps a library with the text of its crate, if that is the tree's and isn't kept."""
    name = os.path.basename(crate)
    kept = f"{into}/crates/{name}"
    there = os.path.isfile(f"{kept}/out/rlib/{name}.rlib/format") and are_same(crate, kept)
    if there or not are_same(crate, f"{tree}/crates/{name}"):
        return
    shutil.rmtree(kept, ignore_errors=True)
    shutil.copytree(crate, kept, ignore=shutil.ignore_patterns(*LEFT_OUT))
    shutil.copytree(library, f"{kept}/out/rlib/{name}.rlib")
    print("kept", name, flush=True)


def keep_program(file, into):
    """Keeps a program, if it is newer than what is kept."""
    kept = f"{into}/out/{os.path.basename(file)}"
    if os.path.isfile(file) and (not os.path.exists(kept) or os.path.getmtime(kept) < os.path.getmtime(file)):
        os.makedirs(f"{into}/out", exist_ok=True)
        shutil.copy2(file, kept)


def go_round(tree, into):
    """Looks once through the copies in which gates run."""
    for repo in glob.glob("/tmp/rt-copy-*/repo"):
        os.makedirs(into, exist_ok=True)
        shutil.copy(f"{repo}/crates.txt", into)
        for form in glob.glob(f"{repo}/crates/*/out/rlib/*.rlib/format"):
            if time.time() - os.path.getmtime(form) > 3:
                library = os.path.dirname(form)
                keep(library.split("/out/")[0], library, tree, into)
        for name in ("wathread", "cases"):
            for file in glob.glob(f"{repo}/crates/{name}/out/{name}*"):
                keep_program(file, into)


def main(tree, into):
    while True:
        try:
            go_round(tree, into)
        except OSError as fault:  # a gate has ended meanwhile
            print(fault, flush=True)
        time.sleep(PAUSE)


if __name__ == "__main__":
    if len(sys.argv) != 3:
        sys.exit(__doc__)
    main(*sys.argv[1:])
