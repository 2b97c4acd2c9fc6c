"""The calls of the library. All of them may be made on several threads at once."""
from __future__ import annotations

import ctypes
import json
import threading
from typing import Any, Callable, NoReturn, Sequence, Tuple, Union

from ._library import Answer, RawOptions, RawWord, library
from ._types import (
    Argument,
    CallRefused,
    Checked,
    End,
    Ending,
    Kind,
    ModuleRefused,
    Object,
    OutOfMemory,
    RecordRefused,
    Replayed,
    Run,
    Searched,
    Status,
    Strategy,
    Word,
    ends_of,
    i32,
)

Bytes = Union[bytes, bytearray, memoryview]
Buffer = Any  # an array of ctypes

FIRST_TEXT, FIRST_RECORD, FIRST_MEMORY, MOST_KEPT = 1 << 14, 1 << 15, 1 << 17, 1 << 24
REFUSALS = {
    Status.NO_MODULE: ModuleRefused,
    Status.NO_CALL: CallRefused,
    Status.NO_RECORD: RecordRefused,
}


class _Sizes(threading.local):
    """How much the last answers of this thread took: the next ones get as much room at once."""

    record = FIRST_RECORD
    memory = FIRST_MEMORY


_sizes = _Sizes()


def read_of(data: Bytes) -> Tuple[bytes, int]:
    data = bytes(data)
    return data, len(data)


def words_of(args: Sequence[Argument]) -> Tuple[Any, int]:
    words = [it if isinstance(it, Word) else i32(it) for it in args]
    return (RawWord * max(1, len(words)))(*(RawWord(it.bits, it.is_wide) for it in words)), len(words)


def _range(name: str, value: int, bits: int) -> int:
    if not 0 <= value < 1 << bits:
        raise CallRefused({"status": 3, "refused": {"stage": "call", "fault": f"{name} out of range"}})
    return value


def options_of(*, seed: int = 1, run: int = 1, fuel: int = 0, limit: int = 1, strategy: Strategy = Strategy.MIX,
             depth: int = 3, states: int = 0, dump: int = 0) -> RawOptions:
    return RawOptions(_range("seed", seed, 64), _range("run", run, 64), _range("fuel", fuel, 64),
                      _range("limit", limit, 32), strategy, _range("depth", depth, 32), _range("states", states, 32),
                      _range("dump", dump, 32))


def object_of(call: Callable[[Buffer, int, Answer], int]) -> Tuple[Status, Object]:
    """Makes a call that writes a text, once more where that wants more room, and gives its status and object."""
    size = FIRST_TEXT
    while True:
        text, answer = ctypes.create_string_buffer(size), Answer()
        status = Status(call(text, size, answer))
        if status == Status.FAILED:
            raise OutOfMemory("no memory")
        if answer.text <= size:
            break
        size = answer.text
    found: Object = json.loads(text.raw[: answer.text])
    if status in REFUSALS:
        raise REFUSALS[status](found)
    return status, found


def check(module: Bytes) -> Checked:
    """Reads and validates a module."""
    call = library().wathread_check
    _, found = object_of(lambda text, size, answer: int(call(*read_of(module), text, size, answer)))
    return Checked(int(found["functions"]), found)


def run(module: Bytes, name: str, args: Sequence[Argument] = (), *, seed: int = 1, number: int = 1,
        fuel: int = 10_000_000, limit: int = 10_000, strategy: Strategy = Strategy.MIX, depth: int = 3,
        keep_record: bool = True) -> Run:
    """Makes the run of this number by this seed, the same one on every machine. An int of the arguments is an i32."""
    options = options_of(seed=seed, run=number, fuel=fuel, limit=limit, strategy=strategy, depth=depth)
    call = library().wathread_run

    def make(record: Buffer, size: int, answer: Answer) -> int:
        return int(call(*read_of(module), *read_of(name.encode()), *words_of(args), options, record, size, answer))

    return made_by(make, lambda status: _refuse_run(status, module, name, args), seed, number, keep_record)


def made_by(call: Callable[[Buffer, int, Answer], int], refuse: Callable[[Status], NoReturn], seed: int, number: int,
            keep_record: bool) -> Run:
    """Makes a run, once more where its record wants more room."""
    size = _sizes.record if keep_record else 0
    while True:
        record, answer = ctypes.create_string_buffer(max(1, size)), Answer()
        status = Status(call(record, size, answer))
        if status > Status.ENDED:
            refuse(status)
        if not keep_record or answer.bytes <= size:
            break
        size = answer.bytes
        _sizes.record = min(size, MOST_KEPT)
    kept = ctypes.string_at(record, answer.bytes) if keep_record else b""
    return Run(status, _end(answer), answer.units, kept, seed, number)


def _end(answer: Answer) -> End:
    kind = Kind(answer.kind)
    has_value, has_number = kind in (Kind.I32, Kind.I64), kind in (Kind.TRAP, Kind.STOP)
    return End(kind, answer.value if has_value else None, answer.number if has_number else None)


def _refuse_run(status: Status, module: Bytes, name: str, args: Sequence[Argument]) -> NoReturn:
    """Raises what a run was refused for, which has no object: a check has that of a module, a search that of a call."""
    if status == Status.FAILED:
        raise OutOfMemory("no memory")
    check(module)
    search(module, name, args, states=0)
    raise CallRefused({"status": 3, "refused": {"stage": "call", "fault": "fuel or limit out of range"}})


def replay(module: Bytes, record: Bytes, *, memory: bool = False) -> Replayed:
    """Makes the run of a record again. The memory's bytes are given where they are wanted."""
    call = library().wathread_replay
    room, wanted = ctypes.create_string_buffer(_sizes.memory if memory else 1), 0

    def make(text: Buffer, size: int, answer: Answer) -> int:
        nonlocal wanted
        status: int = call(*read_of(module), *read_of(record), room, len(room) if memory else 0, text, size, answer)
        wanted = answer.bytes
        return status

    status, found = object_of(make)
    if memory and wanted > len(room):
        room = ctypes.create_string_buffer(wanted)
        _sizes.memory = min(wanted, MOST_KEPT)
        status, found = object_of(make)
    left = ctypes.string_at(room, wanted) if memory else None
    return Replayed(status, ends_of(found["threads"]), int(found["pages"]), left, found)


def search(module: Bytes, name: str, args: Sequence[Argument] = (), *, states: int = 1_000_000,
           dump: int = 0) -> Searched:
    """Goes through every order of the threads' entries, and tells all endings. An int of the arguments is an i32."""
    options = options_of(states=states, dump=dump)
    call = library().wathread_search
    return searched_of(lambda text, size, answer: int(call(*read_of(module), *read_of(name.encode()), *words_of(args),
                                                           options, text, size, answer)))


def searched_of(call: Callable[[Buffer, int, Answer], int]) -> Searched:
    """Makes a search, and gives what it found."""
    status, found = object_of(call)
    liveness = found.get("liveness", {})
    endless = liveness.get("endless")
    return Searched(status, found["verdict"], int(found["states"]), tuple(_ending(it) for it in found["endings"]),
                    None if endless is None else int(endless), liveness.get("fair_runs"), found)


def _ending(it: Object) -> Ending:
    return Ending(ends_of(it["threads"]), int(it["pages"]), bytes.fromhex(it["bytes"]) if "bytes" in it else None)
