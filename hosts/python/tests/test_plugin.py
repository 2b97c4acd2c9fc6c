"""The plugin: what passes, what fails, and what a failing test's report shows."""
import os
import shutil
from importlib import metadata

import pytest

from wathread._program import Program

PROGRAM = os.environ.get("WATHREAD_PROGRAM") or shutil.which("wathread")
# Where the package is installed, pytest finds the plugin itself.
IS_INSTALLED = any(it.metadata["Name"] == "wathread" for it in metadata.distributions())
PLUGIN = [] if IS_INSTALLED else ["-p", "wathread.pytest_plugin"]


@pytest.fixture
def tests(pytester, examples, monkeypatch):
    """Makes a test of these lines, beside the example modules, and runs it with these words. A program that is on the
    path doesn't count."""
    for name in ("c/broken_lock.wasm", "c/broken_lock.record", "bugs/barrier.wasm", "bugs/lost_wakeup.wasm",
                 "bugs/order.wasm", "search/peterson.wasm"):
        shutil.copy(examples / name, pytester.path)
    find = Program.find
    monkeypatch.setattr(Program, "find", lambda named=None: find(named) if named else None)

    def run(lines, *words):
        pytester.makepyfile("def test_it(wathread):\n    " + lines)
        return pytester.runpytest(*PLUGIN, *words)

    return run


SEARCH = 'wathread.search_all("broken_lock.wasm", "main", allow=["i32:2"])'


def test_what_may_come_passes(tests):
    tests(
        'wathread.search_all("broken_lock.wasm", "main", allow=["i32:2", "ok i32:1"])\n'
        '    assert wathread.search_all("peterson.wasm", "f", [1]).states == 115\n'
        '    assert set(wathread.runs("broken_lock.wasm", "main", seed=4, count=20)) == {"ok i32:2", "ok i32:1"}\n'
        '    wathread.replay("broken_lock.wasm", "broken_lock.record", allow=[{0: "i32:1"}])\n'
        '    order = [{0: "stop asleep for good", 1: "trap unreachable"}, "i32:0"]\n'
        '    wathread.search_all("order.wasm", "main", allow=order)\n'
    ).assert_outcomes(passed=1)


def test_the_object_is_shown_without_the_program(tests):
    result = tests(SEARCH)
    result.assert_outcomes(failed=1)
    result.stdout.fnmatch_lines(["*EndsOtherwise: broken_lock.wasm: main may end otherwise: thread 0: ok i32:1; *",
                                 "*allowed: i32:2", "*wathread object*", '*"verdict": "all",*'])


@pytest.mark.skipif(not PROGRAM, reason="wathread isn't on the path, and WATHREAD_PROGRAM doesn't name it")
def test_the_rows_are_shown_by_the_program(tests, pytester):
    result = tests(SEARCH, f"--wathread-program={PROGRAM}", "--wathread-records=kept", "--wathread-rows=40")
    result.assert_outcomes(failed=1)
    result.stdout.fnmatch_lines(["*EndsOtherwise: *", "*wathread show*", "(* rows before)", "*t[012] *broken_lock.c:*"])
    kept = list((pytester.path / "kept").iterdir())
    assert [it.name for it in kept] == ["test_the_rows_are_shown_by_the_program.py_test_it.record"]
    assert kept[0].read_bytes().startswith(b"wathread-record 2\n")


@pytest.mark.skipif(not PROGRAM, reason="wathread isn't on the path, and WATHREAD_PROGRAM doesn't name it")
def test_the_program_looks_for_what_no_drawn_run_has(tests, pytester):
    pytester.makeini(f"[pytest]\nwathread_program = {PROGRAM}\n")
    result = tests(SEARCH, "--wathread-runs=0")
    result.assert_outcomes(failed=1)
    result.stdout.fnmatch_lines(["*wathread show*", "*t[12] *broken_lock.c:*"])


@pytest.mark.skipif(not PROGRAM, reason="wathread isn't on the path, and WATHREAD_PROGRAM doesn't name it")
def test_rows_of_what_never_ends(tests):
    result = tests('wathread.search_all("barrier.wasm", "main")', f"--wathread-program={PROGRAM}")
    result.assert_outcomes(failed=1)
    result.stdout.fnmatch_lines(["*main may never end: from which no run ends", "*wathread show*", "*barrier.c:*"])


@pytest.mark.parametrize("lines, words", [
    ('wathread.search_all("peterson.wasm", "f", [1], states=10)', "*not all orders*: too many states*"),
    ('wathread.search_all("barrier.wasm", "main")', "*main may never end: from which no run ends*"),
    ('wathread.search_all("lost_wakeup.wasm", "main")', "*may end otherwise: *stop asleep for good*"),
    ('wathread.search_all("broken_lock.wasm", "main", allow=[{1: "i32:2"}])', "*may end otherwise: *"),
    ('wathread.runs("broken_lock.wasm", "main", seed=4, count=20, allow=["i32:2"])', "*run 13 by seed 4 of main ends*"),
    ('wathread.replay("broken_lock.wasm", "broken_lock.record", allow=["i32:2"])', "*the record ends otherwise*"),
])
def test_what_may_not_come_fails(tests, lines, words):
    result = tests(lines)
    result.assert_outcomes(failed=1)
    result.stdout.fnmatch_lines([words])


def test_a_program_that_is_not_there_is_said(tests):
    tests(SEARCH, "--wathread-program=/nothing").stdout.fnmatch_lines(["*/nothing is no program*"])


def test_what_may_never_end_may_be_allowed(tests):
    tests('wathread.search_all("barrier.wasm", "main", may_never_end=True)').assert_outcomes(passed=1)
