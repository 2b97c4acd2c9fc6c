"""What the calls take, answer and raise."""
from __future__ import annotations

import enum
from dataclasses import dataclass, field
from typing import Any, Dict, List, Optional, Tuple, Union

Object = Dict[str, Any]


class Status(enum.IntEnum):
    """The statuses of the program."""

    WELL = 0
    ENDED = 1
    NO_MODULE = 2
    NO_CALL = 3
    NO_RECORD = 4
    FAILED = 5


class Kind(enum.IntEnum):
    """How a thread ended."""

    NONE = 0
    VOID = 1
    I32 = 2
    I64 = 3
    TRAP = 4
    STOP = 5


class Trap(enum.IntEnum):
    UNREACHABLE = 1
    DIVIDE_BY_ZERO = 2
    INTEGER_OVERFLOW = 3
    OUT_OF_BOUNDS = 4
    UNALIGNED_ATOMIC = 5
    NOT_SHARED = 6
    UNDEFINED_ELEMENT = 7
    UNINITIALIZED_ELEMENT = 8
    SIGNATURE_MISMATCH = 9
    STACK_EXHAUSTED = 10


class Stop(enum.IntEnum):
    OUT_OF_FUEL = 1
    ASLEEP_FOR_GOOD = 2
    RECORD_FULL = 3


class Strategy(enum.IntEnum):
    """Who goes on, whenever more than one thread can."""

    MIX = 0
    RANDOM = 1
    PRIORITIES = 2
    SPIN = 3


def _words_of(number: int, words: type[enum.IntEnum]) -> str:
    try:
        return words(number).name.lower().replace("_", " ")
    except ValueError:
        return str(number)


@dataclass(frozen=True)
class Word:
    """An argument: an i64 where it is wide, and else an i32."""

    bits: int
    is_wide: bool = False


def i32(value: int) -> Word:
    """An argument that is an i32, signed or unsigned."""
    if not -(1 << 31) <= value < 1 << 32:
        raise OverflowError(f"{value} is no i32")
    return Word(value & 0xFFFFFFFF)


def i64(value: int) -> Word:
    """An argument that is an i64, signed or unsigned."""
    if not -(1 << 63) <= value < 1 << 64:
        raise OverflowError(f"{value} is no i64")
    return Word(value & 0xFFFFFFFFFFFFFFFF, True)


Argument = Union[int, Word]


@dataclass(frozen=True)
class End:
    """How a thread ended: with the value of an i32 or i64, unsigned, or with the number of a trap or a stop."""

    kind: Kind
    value: Optional[int] = None
    number: Optional[int] = None

    @property
    def is_well(self) -> bool:
        return self.kind in (Kind.VOID, Kind.I32, Kind.I64)

    def __str__(self) -> str:
        """The words that the program has for it, as `ok i32:2` or `trap unreachable`."""
        if self.kind in (Kind.I32, Kind.I64):
            return f"ok {self.kind.name.lower()}:{self.value}"
        if self.kind == Kind.TRAP:
            return f"trap {_words_of(self.number or 0, Trap)}"
        if self.kind == Kind.STOP:
            return f"stop {_words_of(self.number or 0, Stop)}"
        return "ok" if self.kind == Kind.VOID else "none"

    @staticmethod
    def of_outcome(outcome: Object) -> End:
        """The end that an `outcome` of an object says."""
        if "trap" in outcome:
            return End(Kind.TRAP, number=int(outcome["number"]))
        if "stop" in outcome:
            return End(Kind.STOP, number=int(outcome["number"]))
        value = outcome["ok"]
        if value is None:
            return End(Kind.VOID)
        return End(Kind.I32, int(value["i32"])) if "i32" in value else End(Kind.I64, int(value["i64"]))


def ends_of(threads: List[Object]) -> Dict[int, End]:
    """How each thread ended, by its number."""
    return {int(it["thread"]): End.of_outcome(it["outcome"]) for it in threads}


@dataclass(frozen=True)
class Checked:
    functions: int
    object: Object = field(repr=False)


@dataclass(frozen=True)
class Run:
    """A run: how thread 0 ended, how many units it spent, and the record, which is empty where none was wanted."""

    status: Status
    end: End
    units: int
    record: bytes = field(repr=False)
    seed: int
    number: int


@dataclass(frozen=True)
class Replayed:
    """A run that was made again: how each thread ended, the page count, and the memory, where it was wanted."""

    status: Status
    ends: Dict[int, End]
    pages: int
    memory: Optional[bytes] = field(repr=False)
    object: Object = field(repr=False)


@dataclass(frozen=True)
class Ending:
    """An ending of a search: how each thread ended, the page count, and the first bytes, where they were wanted."""

    ends: Dict[int, End]
    pages: int
    memory: Optional[bytes] = None

    def __str__(self) -> str:
        threads = "; ".join(f"thread {number}: {end}" for number, end in sorted(self.ends.items()))
        return f"{threads}; pages {self.pages}"


@dataclass(frozen=True)
class Searched:
    """A search through every order. Where it is complete, no run by the call ends otherwise."""

    status: Status
    verdict: str
    states: int
    endings: Tuple[Ending, ...]
    endless: Optional[int]
    fair_runs: Optional[str]
    object: Object = field(repr=False)

    @property
    def is_complete(self) -> bool:
        return self.verdict == "all"


class WathreadError(Exception):
    """Any fault of a call."""


class LibraryMissing(WathreadError, OSError):
    """The shared object isn't there, or isn't the library."""


class OutOfMemory(WathreadError, MemoryError):
    """The system refused memory."""


class OutOfBounds(WathreadError, IndexError):
    """Bytes don't lie within an instance's memory, or can't be the whole of it."""


class Refused(WathreadError):
    """Something is refused: the object of JSON says what."""

    status: Status

    def __init__(self, words: str, object: Object) -> None:
        super().__init__(words)
        self.object = object
        self.refused: Object = object.get("refused", {})
        self.stage: str = self.refused.get("stage", "")

    def _number(self, name: str) -> Optional[int]:
        return int(self.refused[name]) if name in self.refused else None


class ModuleRefused(Refused):
    """The bytes are no valid module's: `stage` is `read`, with `number` and `offset`, or `validity`, with `number`, and
    in a body with `function` and `instruction`. docs/LIMITS.md has the tables."""

    status = Status.NO_MODULE

    def __init__(self, object: Object) -> None:
        it = object["refused"]
        place = f" at {it['offset']}" if "offset" in it else ""
        if "function" in it:
            place = f" in function {it['function']} at {it['instruction']}"
        super().__init__(f"module refused: {it['stage']} {it['number']}{place}", object)
        self.number: int = int(it["number"])
        self.offset = self._number("offset")
        self.function = self._number("function")
        self.instruction = self._number("instruction")


class CallRefused(Refused):
    """No such function is exported, or the arguments don't fit, or a number is out of its range."""

    status = Status.NO_CALL

    def __init__(self, object: Object) -> None:
        self.fault: str = object["refused"]["fault"]
        super().__init__(f"call refused: {self.fault}", object)


class RecordRefused(Refused):
    """The bytes are no record's, or it is of no run of the module: `line` is the first wrong one, if one is named."""

    status = Status.NO_RECORD

    def __init__(self, object: Object) -> None:
        self.fault: str = object["refused"]["fault"]
        super().__init__(f"record refused: {self.fault}", object)
        self.line = self._number("line")
