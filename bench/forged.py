#!/usr/bin/env python3
"""forged.py FOLDER [--entries N] [--frames N] [--threads N] [--bytes N] [--of KIND,..] [--measure [--seconds N] [--megabytes N]]:
writes modules whose names or debug information make what `show` prints as large as it can be, and a record of a run of each:

- function: one function with a name of so many bytes (1000000), which stands in each row; data, file: a static variable, a
  file of source with such a name;
- deep: the same function, 990 times open;
- variables: as many variables as the bytes have room for, in each of 990 frames; named: with 1000 bytes of type and name
  each; threads: those of `named`, in 63 more threads.

The run makes so many entries (100). With --measure it prints for each what `show` takes as rows, with --json, --at, --html and
--trace: seconds of a processor, the most memory, and bytes that are printed; each ends at so many seconds (60) and megabytes of
addresses (4000). PROGRAM=PATH: the program."""
import argparse
import os
import resource
import subprocess
import sys

HERE = os.path.dirname(os.path.abspath(__file__))
sys.path.insert(0, f"{HERE}/debug")
import forge  # noqa: E402
from forge import AT, ENCODING, EXPRESSION, FUNCTION, HIGH, LOW, MOST, NAME, PLACE, SIZE, TEXT, TYPE, VARIABLE, four, leb  # noqa: E402

PROGRAM = os.path.abspath(os.environ.get("PROGRAM", f"{HERE}/../crates/wathread/out/wathread.by-rattle"))
KINDS = ("function", "data", "file", "deep", "variables", "named", "threads")
FRAME_BASE, ADDRESS, DATA1, REF1 = 0x40, 0x01, 0x0b, 0x11


def part(number, contents):
    return bytes([number]) + leb(len(contents)) + contents


def vector(*items):
    return leb(len(items)) + b"".join(items)


def text(some):
    return leb(len(some)) + some


def signed(number):
    """A number from 0 on as a signed one."""
    out = b""
    while number > 63:
        out, number = out + bytes([number & 127 | 128]), number >> 7
    return out + bytes([number])


def code(entries, frames, threads):
    """`main` starts threads and calls f, as each of them does, which calls itself, and then adds 1 to an atomic number."""
    calls = b"\x20\0\x04\x40\x20\0\x41\1\x6b\x10\1\x05"        # f: if it has an argument that isn't 0, of one less
    adds = b"\x03\x40\x41\0\x41\1\xfe\x1e\2\0\x41" + signed(entries) + b"\x49\x0d\0\x0b\x0b\x0b"
    begins = b"\x41" + signed(frames - 1) + b"\x10\1\x0b"
    spawns = b"\x41\0\x10\0\x1a" * threads
    bodies = [text(b"\0" + it) for it in (calls + adds, spawns + begins, begins)]
    return b"\0asm\1\0\0\0" + b"".join((
        part(1, vector(b"\x60\1\x7f\1\x7f", b"\x60\1\x7f\0", b"\x60\0\0", b"\x60\2\x7f\x7f\0")),
        part(2, vector(text(b"wasi") + text(b"thread-spawn") + b"\0\0")),
        part(3, vector(b"\1", b"\2", b"\3")),
        part(5, vector(b"\3\1\1")),
        part(7, vector(text(b"main") + b"\0\2", text(b"wasi_thread_start") + b"\0\3")),
        part(10, vector(*bodies))))


def named(name):
    return part(0, text(b"name") + part(1, vector(b"\1" + text(name))))


def variables(size, kind, width):
    """A function with variables at its frame, of a type of this name, and with names of so many letters or more."""
    unit = forge.Unit()
    number = unit.add((0x24, False, ((SIZE, DATA1), (ENCODING, DATA1), (NAME, TEXT))), b"\4\5", kind + b"\0")
    unit.add((FUNCTION, True, ((NAME, TEXT), (LOW, ADDRESS), (HIGH, ADDRESS), (FRAME_BASE, EXPRESSION))), b"f\0", four(1),
             four(MOST), b"\4\xed\0\0\x9f")
    count = 0
    while len(unit.bytes) < size - width:
        count += 1
        unit.add((VARIABLE, False, ((NAME, TEXT), (TYPE, REF1), (PLACE, EXPRESSION))), b"v%0*x\0" % (width, count),
                 bytes([number]), b"\2\x91\0")
    unit.close(2)
    return unit.sections()


def data(name):
    unit = forge.Unit()
    number = forge.base(unit)
    unit.add((VARIABLE, False, ((NAME, TEXT), (TYPE, 0x13), (PLACE, EXPRESSION))), name + b"\0", four(number), b"\5\x03" + four(0))
    unit.close()
    return unit.sections()


def file(name):
    """A table of lines: line 1 of the file is all code."""
    header = b"\1\1\1\xfb\x0e\x0d\0\1\1\1\1\0\0\0\1\0\0\1\0" + name + b"\0\0\0\0\0"
    lines = (4).to_bytes(2, "little") + four(len(header)) + header + b"\0\5\2" + four(0) + b"\1\2" + leb(60000) + b"\0\1\1"
    return forge.section(".debug_line", four(len(lines)) + lines)


def make(kind, words):
    frames = words.frames if kind in ("deep", "variables", "named", "threads") else 1
    module = code(words.entries, frames, words.threads if kind == "threads" else 0)
    name = b"n" * words.bytes
    return module + {"function": lambda: named(name), "deep": lambda: named(name), "data": lambda: data(name),
                     "file": lambda: file(name), "variables": lambda: variables(words.bytes, b"int", 1),
                     "named": lambda: variables(words.bytes, b"t" * 750, 250),
                     "threads": lambda: variables(words.bytes, b"t" * 750, 250)}[kind]()


def measure(asked, seconds, megabytes):
    """The status, seconds of a processor, peak memory and bytes on standard output of a command."""
    def limit():
        resource.setrlimit(resource.RLIMIT_CPU, (seconds, seconds + 1))
        resource.setrlimit(resource.RLIMIT_AS, (megabytes << 20, megabytes << 20))
    job = subprocess.Popen([PROGRAM, *asked], stdout=subprocess.PIPE, preexec_fn=limit, bufsize=0)
    size = 0
    while some := os.read(job.stdout.fileno(), 1 << 20):
        size += len(some)
    _, status, used = os.wait4(job.pid, 0)
    job.returncode = os.waitstatus_to_exitcode(status)
    return job.returncode, used.ru_utime + used.ru_stime, used.ru_maxrss / 1024, size


def main():
    parser = argparse.ArgumentParser(description=__doc__, formatter_class=argparse.RawDescriptionHelpFormatter)
    parser.add_argument("folder")
    parser.add_argument("--measure", action="store_true")
    parser.add_argument("--of", default=",".join(KINDS))
    for name, value in (("entries", 100), ("frames", 990), ("threads", 63), ("bytes", 1000000), ("seconds", 60), ("megabytes", 4000)):
        parser.add_argument(f"--{name}", type=int, default=value)
    words = parser.parse_args()
    os.makedirs(words.folder, exist_ok=True)
    for kind in words.of.split(","):
        module, record = f"{words.folder}/{kind}.wasm", f"{words.folder}/{kind}.record"
        with open(module, "wb") as made:
            made.write(make(kind, words))
        subprocess.run([PROGRAM, "run", module, "--invoke", "main", "--record", record], check=True, stdout=subprocess.DEVNULL)
        with open(record, "rb") as made:
            line = 1 + made.read().split(b"\n0 rmw")[0].count(b"\n") + 1
        for asked in ([], ["--json"], ["--at", str(line)], ["--at", str(line), "--json"], ["--html", "-"], ["--trace", "-"]):
            if words.measure:
                status, took, memory, size = measure(["show", module, record, *asked], words.seconds, words.megabytes)
                print(f"{kind:10} show {' '.join(asked):18} status {status:3} {took:8.2f} s {memory:8.1f} MB {size:14} bytes", flush=True)


main()
