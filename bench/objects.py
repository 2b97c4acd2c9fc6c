#!/usr/bin/env python3
"""objects.py [PROGRAM]: holds what the program prints with --json to docs/wathread.schema.json.

Runs the program (./wathread where none is named) on the modules and records of crates/cases/data, on files that are no
modules and on files that are not there, and checks of each object: it is one line, the schema takes it, and its status
is the exit status. Wants python's jsonschema. Prints how many objects there were, and each that is wrong.
"""
import json
import os
import subprocess
import sys
import tempfile

import jsonschema

TOP = os.path.dirname(os.path.dirname(os.path.abspath(__file__)))
DATA = os.path.join(TOP, "crates", "cases", "data")


def lines_of(folder):
    """The command lines that are tried, each its words behind the program's name, in the folder of the data."""
    modules = sorted(name for name in os.listdir(DATA) if name.endswith(".wasm"))
    for name in modules:
        yield ["check", name, "--json"]
        yield ["run", name, "--invoke", "f", "--json", "--fuel", "10000", "--limit", "50", "--dump", "5"]
        yield ["run", name, "--invoke", "f", "--json", "--fuel", "100", "--memory", "words", "1"]
        yield ["run", name, "--invoke", "no\"such\\name\t\u00e9", "--json"]
        search = ["search", name, "--invoke", "f", "--json", "--fuel", "10000", "--limit", "50", "--dump", "5"]
        yield [*search, "--runs", "20"]
        yield [*search, "--runs", "20", "--expect", "i32:77", "--shrink", "--shrink-time", "1"]
        yield [*search, "--runs", "20", "--races"]
        yield [*search, "--runs", "20", "--races", "--shrink", "--shrink-time", "1"]
        yield [*search, "--all", "--states", "2000"]
        yield [*search, "--all", "--states", "2000", "--expect", "i32:77"]
        yield [*search, "--all", "--states", "2000", "--orders", "all", "--find", "a fair run can go on for ever"]
    for name in sorted(name for name in os.listdir(DATA) if name.endswith(".record")):
        module = name.removesuffix(".record") + ".wasm"
        yield ["replay", module if module in modules else "counting.wasm", name, "--json", "--units", "--dump", "9"]
        yield ["races", module if module in modules else "counting.wasm", name, "--json", "--most", "2"]
        show = ["show", module if module in modules else "counting.wasm", name, "--json"]
        yield show
        yield [*show, "--thread", "1", "--lines", "12-40"]
        yield [*show, "--addr", "0-7", "--names", "cc_broken_lock.wasm"]
        yield [*show, "--addr", "no such data"]
        for at in ["9", "12", "21", "36", "2000000", "trap", "end"]:
            yield [*show, "--at", at, "--dump", "4090:20"]
            yield [*show, "--at", at, "--raw"]
        yield [*show, "--last-write", "4096:8"]
        yield [*show, "--last-write", "0:4096", "--at", "14"]
        yield [*show, "--last-write", "no such data"]
    yield ["check", "no\"such\nfile\u00e9", "--json"]
    yield ["run", "no such file", "--invoke", "f", "--json"]
    yield ["replay", "fac.wasm", "no such record", "--json"]
    yield ["races", "fac.wasm", "no such record", "--json"]
    yield ["show", "fac.wasm", "no such record", "--json"]
    yield ["search", "no such file", "--invoke", "f", "--json"]
    for number, text in enumerate([b"", b"\0", b"\0asm\1\0\0\0\xff", b"wathread-record 2\n"]):
        path = os.path.join(folder, str(number))
        with open(path, "wb") as file:
            file.write(text)
        yield ["check", path, "--json"]
        yield ["replay", "fac.wasm", path, "--json"]
        yield ["races", "fac.wasm", path, "--json"]
        yield ["show", "fac.wasm", path, "--json"]
        yield ["search", path, "--invoke", "f", "--all", "--json"]


def fault_of(validator, words, done):
    """What is wrong with what a command line printed, or None."""
    text = done.stdout.decode()
    if not text.endswith("\n") or "\n" in text[:-1]:
        return f"not one line: {text!r}"
    found = json.loads(text)
    if found["status"] != done.returncode:
        return f"status {found['status']}, exit status {done.returncode}"
    errors = [error.message for error in validator.iter_errors(found)]
    return errors[0] if errors else None


def main():
    program = os.path.abspath(sys.argv[1] if len(sys.argv) > 1 else os.path.join(TOP, "wathread"))
    with open(os.path.join(TOP, "docs", "wathread.schema.json")) as file:
        validator = jsonschema.Draft202012Validator(json.load(file))
    tried = wrong = 0
    with tempfile.TemporaryDirectory() as folder:
        for words in lines_of(folder):
            done = subprocess.run([program, *words], cwd=DATA, capture_output=True)
            fault = fault_of(validator, words, done)
            tried += 1
            if fault:
                wrong += 1
                print(words, fault)
    print(f"{tried} objects, {wrong} wrong")
    return 1 if wrong else 0


if __name__ == "__main__":
    sys.exit(main())
