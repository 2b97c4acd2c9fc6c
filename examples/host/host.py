#!/usr/bin/env python3
"""A host in Python: runs a plug-in many times, each time another run, and says how these ended.

    host.py LIBRARY MODULE [NAME [RUNS]]

LIBRARY is libwathread.so, which `release/shared.sh` makes of lib/libwathread.a.
"""
import collections
import ctypes
import json
import sys


class Answer(ctypes.Structure):
    _fields_ = [("text", ctypes.c_size_t), ("bytes", ctypes.c_size_t), ("units", ctypes.c_uint64),
                ("value", ctypes.c_uint64), ("kind", ctypes.c_uint32), ("number", ctypes.c_uint32)]


class Word(ctypes.Structure):
    _fields_ = [("bits", ctypes.c_uint64), ("is_wide", ctypes.c_uint32)]


class Options(ctypes.Structure):
    _fields_ = [("seed", ctypes.c_uint64), ("run", ctypes.c_uint64), ("fuel", ctypes.c_uint64), ("limit", ctypes.c_uint32),
                ("strategy", ctypes.c_uint32), ("depth", ctypes.c_uint32), ("states", ctypes.c_uint32),
                ("dump", ctypes.c_uint32)]


def bytes_in(data):
    return ctypes.c_char_p(data), ctypes.c_size_t(len(data))


def replayed(library, module, record):
    """What the run left that a record is of: its object of JSON."""
    text, answer, memory = ctypes.create_string_buffer(1 << 16), Answer(), ctypes.create_string_buffer(1)
    library.wathread_replay(*bytes_in(module), *bytes_in(record), memory, ctypes.c_size_t(0), text,
                            ctypes.c_size_t(len(text)), ctypes.byref(answer))
    return json.loads(text.raw[: answer.text])


def main(path, file, name="main", runs="1000"):
    library = ctypes.CDLL(path)
    with open(file, "rb") as it:
        module = it.read()
    options = Options(1, 1, 10_000_000, 10_000, 0, 3, 1_000_000, 0)
    record, answer, none = ctypes.create_string_buffer(1 << 20), Answer(), Word(0, 0)
    met = collections.OrderedDict()
    for options.run in range(1, int(runs) + 1):
        status = library.wathread_run(*bytes_in(module), *bytes_in(name.encode()), ctypes.byref(none), ctypes.c_size_t(0),
                                      ctypes.byref(options), record, ctypes.c_size_t(len(record)), ctypes.byref(answer))
        if status > 1:
            sys.exit(f"run {options.run}: status {status}")
        key = (answer.kind, answer.number, answer.value)
        if key not in met:
            met[key] = [0, replayed(library, module, record.raw[: answer.bytes])]
        met[key][0] += 1
    for count, left in met.values():
        print(f"{count} runs: {json.dumps(left['threads'][0]['outcome'])}")


if __name__ == "__main__":
    if not 3 <= len(sys.argv) <= 5:
        sys.exit(__doc__)
    main(*sys.argv[1:])
