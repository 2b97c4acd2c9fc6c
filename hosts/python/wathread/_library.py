"""The shared object: where it is, and its calls as ctypes has them."""
from __future__ import annotations

import ctypes
import functools
import os
import sys
import threading
from pathlib import Path
from typing import Iterator, Optional

from ._types import LibraryMissing

VARIABLE = "WATHREAD_LIBRARY"
SONAME = "libwathread.so.0"


class Answer(ctypes.Structure):
    _fields_ = [
        ("text", ctypes.c_size_t),
        ("bytes", ctypes.c_size_t),
        ("units", ctypes.c_uint64),
        ("value", ctypes.c_uint64),
        ("kind", ctypes.c_uint32),
        ("number", ctypes.c_uint32),
    ]


class RawWord(ctypes.Structure):
    _fields_ = [("bits", ctypes.c_uint64), ("is_wide", ctypes.c_uint32)]


class RawOptions(ctypes.Structure):
    _fields_ = [
        ("seed", ctypes.c_uint64),
        ("run", ctypes.c_uint64),
        ("fuel", ctypes.c_uint64),
        ("limit", ctypes.c_uint32),
        ("strategy", ctypes.c_uint32),
        ("depth", ctypes.c_uint32),
        ("states", ctypes.c_uint32),
        ("dump", ctypes.c_uint32),
    ]


class Handle(ctypes.Structure):
    """Of a module or an instance: closed where it is all zero."""

    _fields_ = [("at", ctypes.c_void_p), ("is_open", ctypes.c_uint32)]


READ = [ctypes.c_char_p, ctypes.c_size_t]
WRITTEN = [ctypes.c_void_p, ctypes.c_size_t]
NAMED = [*READ, ctypes.POINTER(RawWord), ctypes.c_size_t, ctypes.POINTER(RawOptions)]
CALL = [*READ, *NAMED]
ANSWER = [ctypes.POINTER(Answer)]
HANDLE = [ctypes.POINTER(Handle)]
CALLS = {
    "wathread_check": [*READ, *WRITTEN, *ANSWER],
    "wathread_run": [*CALL, *WRITTEN, *ANSWER],
    "wathread_replay": [*READ, *READ, *WRITTEN, *WRITTEN, *ANSWER],
    "wathread_search": [*CALL, *WRITTEN, *ANSWER],
    "wathread_module_open": [*READ, *HANDLE, *WRITTEN, *ANSWER],
    "wathread_module_share": [*HANDLE, *HANDLE],
    "wathread_module_free": HANDLE,
    "wathread_instance_open": [*HANDLE, *HANDLE],
    "wathread_instance_free": HANDLE,
    "wathread_instance_pages": HANDLE,
    "wathread_instance_read": [*HANDLE, ctypes.c_uint32, *WRITTEN],
    "wathread_instance_write": [*HANDLE, ctypes.c_uint32, *READ],
    "wathread_instance_set": [*HANDLE, *READ],
    "wathread_call": [*HANDLE, *NAMED, *WRITTEN, *ANSWER],
    "wathread_instance_replay": [*HANDLE, *READ, *WRITTEN, *ANSWER],
    "wathread_instance_search": [*HANDLE, *NAMED, *WRITTEN, *ANSWER],
}

_lock = threading.Lock()
_loaded: Optional[ctypes.CDLL] = None


def places() -> Iterator[str]:
    """Where the shared object is looked for, the first place first. A path that the variable names is the only one."""
    named = os.environ.get(VARIABLE)
    if named:
        yield named
        return
    yield str(Path(__file__).parent / SONAME)
    for parent in Path(__file__).resolve().parents:
        if (parent / "include" / "wathread.h").is_file():
            yield str(parent / "lib" / SONAME)
    for prefix in dict.fromkeys((sys.prefix, "/usr/local")):
        yield str(Path(prefix) / "lib" / SONAME)
    yield SONAME


@functools.lru_cache(maxsize=None)
def load(path: str) -> ctypes.CDLL:
    """The library at this path, where the loader finds it."""
    library = ctypes.CDLL(path)
    for name, types in CALLS.items():
        call = getattr(library, name)
        call.argtypes, call.restype = types, None if name.endswith("_free") else ctypes.c_uint32
    return library


def library() -> ctypes.CDLL:
    """The library, which is loaded at the first call."""
    global _loaded
    with _lock:
        if _loaded is None:
            _loaded = _first_of(list(places()))
        return _loaded


def _first_of(paths: list[str]) -> ctypes.CDLL:
    faults = []
    for path in paths:
        if os.path.isabs(path) and not os.path.exists(path):
            faults.append(f"{path}: isn't there")
            continue
        try:
            return load(path)
        except (OSError, AttributeError) as fault:
            faults.append(f"{path}: {fault}")
    raise LibraryMissing(f"{SONAME} isn't there; {VARIABLE} may name it. " + "; ".join(faults))
