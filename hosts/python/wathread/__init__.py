"""wathread runs WebAssembly modules with threads, keeps runs and makes them again.

>>> import wathread
>>> run = wathread.run(module, "main", number=13, seed=4)
>>> print(run.end)
ok i32:1
>>> wathread.replay(module, run.record).ends[0] == run.end
True

A module may stay, and an instance's memory from one call to the next:

>>> with wathread.Module(module) as kept, kept.instance() as instance:
...     print(instance.call("main").end, instance.pages)
ok i32:2 2

The shared object is what WATHREAD_LIBRARY names, or else that beside this package, in the checkout's `lib`, in an
installed prefix, or where the loader finds it.
"""
from ._calls import check, replay, run, search
from ._kept import Instance, Module
from ._types import (
    Argument,
    CallRefused,
    Checked,
    End,
    Ending,
    Kind,
    LibraryMissing,
    ModuleRefused,
    Object,
    OutOfBounds,
    OutOfMemory,
    RecordRefused,
    Refused,
    Replayed,
    Run,
    Searched,
    Status,
    Stop,
    Strategy,
    Trap,
    WathreadError,
    Word,
    i32,
    i64,
)

__all__ = [
    "Argument",
    "CallRefused",
    "Checked",
    "End",
    "Ending",
    "Instance",
    "Kind",
    "LibraryMissing",
    "Module",
    "ModuleRefused",
    "Object",
    "OutOfBounds",
    "OutOfMemory",
    "RecordRefused",
    "Refused",
    "Replayed",
    "Run",
    "Searched",
    "Status",
    "Stop",
    "Strategy",
    "Trap",
    "WathreadError",
    "Word",
    "check",
    "i32",
    "i64",
    "replay",
    "run",
    "search",
]
