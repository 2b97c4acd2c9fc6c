"""Modules that stay, and instances, whose memory stays between calls."""
from __future__ import annotations

import ctypes
import threading
from types import TracebackType
from typing import Any, NoReturn, Optional, Sequence, Type

from ._calls import Buffer, Bytes, made_by, object_of, options_of, read_of, searched_of, words_of
from ._library import Answer, Handle, library
from ._types import (
    Argument,
    CallRefused,
    OutOfBounds,
    OutOfMemory,
    Replayed,
    Run,
    Searched,
    Status,
    Strategy,
    ends_of,
)

PAGE = 65536


class _Kept:
    """A handle, which one call at a time has."""

    _free: str

    def __init__(self) -> None:
        self._frees: Any = getattr(library(), self._free)
        self._raw = Handle()
        self._lock = threading.RLock()

    @property
    def is_open(self) -> bool:
        return bool(self._raw.is_open)

    def close(self) -> None:
        """Frees it, if it is open."""
        with self._lock:
            if self._raw.is_open:
                self._frees(self._raw)

    def _opened(self) -> Handle:
        if not self._raw.is_open:
            raise ValueError("it is closed")
        return self._raw

    def __exit__(self, kind: Optional[Type[BaseException]], fault: Optional[BaseException],
                 trace: Optional[TracebackType]) -> None:
        self.close()

    def __del__(self) -> None:
        if hasattr(self, "_lock"):
            self.close()


def _done(status: int) -> None:
    """Raises what a call without a text was refused for, of an open handle."""
    if status == Status.FAILED:
        raise OutOfMemory("no memory")
    if status != Status.WELL:
        raise OutOfBounds("out of the memory's bounds")


class Module(_Kept):
    """A module that is read and validated once. It may be used on several threads, one call at a time."""

    _free = "wathread_module_free"

    def __init__(self, module: Bytes) -> None:
        super().__init__()
        call = library().wathread_module_open
        data = read_of(module)
        _, found = object_of(lambda text, size, answer: int(call(*data, self._raw, text, size, answer)))
        self.functions = int(found["functions"])

    def __enter__(self) -> Module:
        return self

    def instance(self) -> Instance:
        """An instance, whose memory is the one with which the module begins. It has a share in the module."""
        return Instance(self)


class Instance(_Kept):
    """A module with a memory that stays between calls. It may be used on several threads, one call at a time."""

    _free = "wathread_instance_free"

    def __init__(self, module: Module) -> None:
        super().__init__()
        with module._lock:
            _done(library().wathread_instance_open(module._opened(), self._raw))

    def __enter__(self) -> Instance:
        return self

    @property
    def pages(self) -> int:
        """How many pages of 65,536 bytes the memory has."""
        with self._lock:
            return int(library().wathread_instance_pages(self._opened()))

    def read(self, address: int, count: int) -> bytes:
        """Bytes of the memory from an address on."""
        with self._lock:
            _within(address, count)
            room = ctypes.create_string_buffer(max(1, count))
            _done(library().wathread_instance_read(self._opened(), address, room, count))
        return ctypes.string_at(room, count)

    def write(self, address: int, data: Bytes) -> None:
        """Writes bytes into the memory from an address on."""
        with self._lock:
            bytes_, count = read_of(data)
            _within(address, count)
            _done(library().wathread_instance_write(self._opened(), address, bytes_, count))

    @property
    def memory(self) -> bytes:
        """The whole memory. What is put in its place has as many whole pages as the module's memory can have."""
        with self._lock:
            return self.read(0, PAGE * self.pages)

    @memory.setter
    def memory(self, data: Bytes) -> None:
        with self._lock:
            _done(library().wathread_instance_set(self._opened(), *read_of(data)))

    def call(self, name: str, args: Sequence[Argument] = (), *, seed: int = 1, number: int = 1,
             fuel: int = 10_000_000, limit: int = 10_000, strategy: Strategy = Strategy.MIX, depth: int = 3,
             keep_record: bool = True) -> Run:
        """Makes the run of this number by this seed that begins with this memory, which is then what the run left."""
        options = options_of(seed=seed, run=number, fuel=fuel, limit=limit, strategy=strategy, depth=depth)
        call = library().wathread_call

        def make(record: Buffer, size: int, answer: Answer) -> int:
            return int(call(self._opened(), *read_of(name.encode()), *words_of(args), options, record, size, answer))

        def refuse(status: Status) -> NoReturn:
            if status == Status.FAILED:
                raise OutOfMemory("no memory")
            self.search(name, args, states=0)
            raise CallRefused({"status": 3, "refused": {"stage": "call", "fault": "fuel or limit out of range"}})

        with self._lock:
            return made_by(make, refuse, seed, number, keep_record)

    def replay(self, record: Bytes) -> Replayed:
        """Makes a call again by its record, which began with just this memory: that is then what the run left."""
        call, data = library().wathread_instance_replay, read_of(record)
        with self._lock:
            status, found = object_of(lambda text, size, answer: int(call(self._opened(), *data, text, size, answer)))
        return Replayed(status, ends_of(found["threads"]), int(found["pages"]), None, found)

    def search(self, name: str, args: Sequence[Argument] = (), *, states: int = 1_000_000, dump: int = 0) -> Searched:
        """Goes through every order of a call that begins with this memory, which stays."""
        options = options_of(states=states, dump=dump)
        call: Any = library().wathread_instance_search
        with self._lock:
            return searched_of(lambda text, size, answer: int(call(self._opened(), *read_of(name.encode()),
                                                                   *words_of(args), options, text, size, answer)))


def _within(address: int, count: int) -> None:
    if not (0 <= address < 1 << 32 and 0 <= count < 1 << 32):
        raise OutOfBounds("out of the memory's bounds")
