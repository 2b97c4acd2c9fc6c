"""A plugin for pytest: a test names a module and what may come of it.

    def test_lock(wathread):
        wathread.search_all("lock.wasm", "main", allow=["i32:2"])

What is allowed is a result of thread 0 as the program has it, `i32:2`, `ok`, `trap unreachable`, where all other
threads end well; or a dict of threads and their results, all others ending well. Without `allow` each thread has to end
well. A module's path is relative to the folder of the test.
"""
from __future__ import annotations

import json
import re
import subprocess
import time
from functools import partial
from pathlib import Path
from typing import Any, Callable, Dict, Iterable, Mapping, NoReturn, Optional, Sequence, Union

import pytest

from . import _calls
from ._program import Program
from ._types import Argument, End, Ending, Object, Replayed, Searched, Status

Allowed = Union[str, Mapping[int, str]]
SECONDS = 10
NO_END, FOR_EVER = "from which no run ends", "a fair run can go on for ever"


class EndsOtherwise(AssertionError):
    """A module comes, or may come, to what isn't allowed."""


def _result(words: str) -> str:
    """A result as a line has it: `ok` may be left out before a value."""
    return f"ok {words}" if re.match(r"i(32|64):", words) else words


def _is_allowed(ends: Mapping[int, End], allow: Optional[Iterable[Allowed]]) -> bool:
    if allow is None:
        return all(end.is_well for end in ends.values())
    return any(_fits(ends, {0: it} if isinstance(it, str) else it) for it in allow)


def _fits(ends: Mapping[int, End], named: Mapping[int, str]) -> bool:
    return set(named) <= set(ends) and all(
        str(end) == _result(named[number]) if number in named else end.is_well for number, end in ends.items()
    )


def _line(ends: Mapping[int, End]) -> str:
    return "; ".join(f"thread {number}: {end}" for number, end in sorted(ends.items()))


class Modules:
    """What the fixture `wathread` gives: each call raises where a module ends as isn't allowed."""

    def __init__(self, folder: Path, report: Callable[[str, str], None], program: Optional[Program], rows: int,
                 runs: int, keep: Optional[Path]) -> None:
        self._folder, self._report, self._program = folder, report, program
        self._rows, self._runs, self._keep = rows, runs, keep

    def read(self, module: Union[str, Path]) -> bytes:
        return (self._folder / module).read_bytes()

    def search_all(self, module: Union[str, Path], name: str, args: Sequence[Argument] = (), *,
                   allow: Optional[Sequence[Allowed]] = None, states: int = 1_000_000,
                   may_never_end: bool = False) -> Searched:
        """Goes through every order: all endings have to be met and allowed, and every run has to be able to end."""
        __tracebackhide__ = True
        data = self.read(module)
        found = _calls.search(data, name, args, states=states)
        for ending in found.endings:
            if not _is_allowed(ending.ends, allow):
                record = self._record_of(data, name, args, ending, states)
                self._fail(f"{module}: {name} may end otherwise: {ending}", allow, data, record, found.object)
        if not found.is_complete:
            words = f"{module}: not all orders were gone through: {found.verdict}, {found.states} states"
            self._fail(words, allow, data, None, found.object)
        for fails, words in ((found.endless != 0, NO_END), (found.fair_runs != "end", FOR_EVER)):
            if fails and not may_never_end:
                record = self._searched(data, name, args, words, states)
                self._fail(f"{module}: {name} may never end: {words}", allow, data, record, found.object)
        return found

    def runs(self, module: Union[str, Path], name: str, args: Sequence[Argument] = (), *, count: int = 1000,
             first: int = 1, allow: Optional[Sequence[Allowed]] = None, **options: Any) -> Dict[str, int]:
        """Makes so many drawn runs, each of which has to end as allowed, and counts how they end. The options are those
        of `wathread.run`, as seed, fuel, limit and strategy."""
        __tracebackhide__ = True
        data = self.read(module)
        met: Dict[str, int] = {}
        # Where a run ends well, so do all its threads: thread 0 alone decides, but where others are named.
        names_others = any(not isinstance(it, str) for it in allow or ())
        for number in range(first, first + count):
            run = _calls.run(data, name, args, number=number, **options)
            asks = names_others or run.status != Status.WELL
            ends = _calls.replay(data, run.record).ends if asks else {0: run.end}
            if not _is_allowed(ends, allow):
                replayed = _calls.replay(data, run.record)
                words = f"{module}: run {number} by seed {run.seed} of {name} ends otherwise: {_line(replayed.ends)}"
                self._fail(words, allow, data, run.record, replayed.object)
            met[str(run.end)] = met.get(str(run.end), 0) + 1
        return met

    def replay(self, module: Union[str, Path], record: Union[str, Path, bytes], *,
               allow: Optional[Sequence[Allowed]] = None) -> Replayed:
        """Makes the run of a record, or of the record in a file, again: it has to end as allowed."""
        __tracebackhide__ = True
        data = self.read(module)
        kept = record if isinstance(record, bytes) else (self._folder / record).read_bytes()
        replayed = _calls.replay(data, kept)
        if not _is_allowed(replayed.ends, allow):
            self._fail(f"{module}: the run of the record ends otherwise: {_line(replayed.ends)}", allow, data, kept,
                       replayed.object)
        return replayed

    def _record_of(self, data: bytes, name: str, args: Sequence[Argument], ending: Ending,
                   states: int) -> Optional[bytes]:
        """The record of a run that ends so: of a drawn one, or of one that the program looks for."""
        until = time.monotonic() + SECONDS
        for number in range(1, self._runs + 1):
            run = _calls.run(data, name, args, number=number)
            if run.end == ending.ends[0] and _calls.replay(data, run.record).ends == ending.ends:
                return run.record
            if time.monotonic() > until:
                break
        worst = min(ending.ends.items(), key=lambda it: (it[1].is_well, it[0]))
        return self._searched(data, name, args, f"thread {worst[0]}: {worst[1]}", states)

    def _searched(self, data: bytes, name: str, args: Sequence[Argument], find: str, states: int) -> Optional[bytes]:
        try:
            return self._program.record_of(data, name, args, find, states) if self._program else None
        except (OSError, subprocess.TimeoutExpired):
            return None

    def _fail(self, words: str, allow: Optional[Sequence[Allowed]], data: bytes, record: Optional[bytes],
              object: Object) -> NoReturn:
        __tracebackhide__ = True
        words += f"\nallowed: {'that all threads end well' if allow is None else ', '.join(map(str, allow))}"
        if record is not None and self._keep is not None:
            self._keep.parent.mkdir(parents=True, exist_ok=True)
            self._keep.write_bytes(record)
            words += f"\nrecord: {self._keep}"
        title, rows = "wathread object", json.dumps(object, indent=1)
        if record is not None and self._program is not None:
            try:
                title, rows = "wathread show", self._program.rows(data, record, self._rows)
            except (OSError, subprocess.TimeoutExpired) as fault:
                rows = f"{self._program.path}: {fault}\n{rows}"
        self._report(title, rows)
        raise EndsOtherwise(words)


def pytest_addoption(parser: pytest.Parser) -> None:
    group = parser.getgroup("wathread")
    group.addoption("--wathread-program", metavar="PATH", help="the program that shows the rows of a failure")
    group.addoption("--wathread-rows", metavar="N", type=int, default=60, help="how many rows are shown at most (60)")
    group.addoption("--wathread-runs", metavar="N", type=int, default=1000,
                    help="how many runs are drawn for one that ends as a search found (1000)")
    group.addoption("--wathread-records", metavar="DIR", help="keep the record of each failure in this folder")
    parser.addini("wathread_program", "the program that shows the rows of a failure")


def _keep_path(request: pytest.FixtureRequest) -> Optional[Path]:
    folder = request.config.getoption("--wathread-records")
    return Path(folder) / (re.sub(r"[^\w.-]+", "_", request.node.nodeid) + ".record") if folder else None


@pytest.fixture
def wathread(request: pytest.FixtureRequest) -> Modules:
    """Runs modules and searches through their orders: a test says what may come."""
    config = request.config
    named = config.getoption("--wathread-program") or config.getini("wathread_program")
    program = Program.find(named or None)
    if named and program is None:
        raise pytest.UsageError(f"{named} is no program")
    return Modules(Path(request.path).parent, partial(request.node.add_report_section, "call"), program,
                   config.getoption("--wathread-rows"), config.getoption("--wathread-runs"), _keep_path(request))
