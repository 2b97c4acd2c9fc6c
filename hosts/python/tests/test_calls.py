"""The calls: what each gives, and what each refusal says."""
import ctypes
import os
import subprocess
import sys
from concurrent.futures import ThreadPoolExecutor
from pathlib import Path

import pytest

import wathread
from wathread import _library

END_OF_ONE = wathread.End(wathread.Kind.I32, 1)


@pytest.fixture
def add(examples):
    return (examples / "atomic_add.wasm").read_bytes()


@pytest.fixture
def lock(examples):
    return (examples / "c/broken_lock.wasm").read_bytes()


@pytest.fixture
def barrier(examples):
    return (examples / "bugs/barrier.wasm").read_bytes()


def test_check(add):
    checked = wathread.check(add)
    assert (checked.functions, checked.object) == (1, {"status": 0, "functions": 1})


def test_run_and_replay(add):
    run = wathread.run(add, "f")
    assert (run.status, run.end) == (wathread.Status.WELL, wathread.End(wathread.Kind.I32, 0))
    assert run.record.startswith(b"wathread-record 2\n") and run.record.endswith(b"finish\n")
    replayed = wathread.replay(add, run.record, memory=True)
    assert replayed.ends == {0: run.end} and replayed.pages == 1
    assert len(replayed.memory) == 65536 and replayed.memory[:2] == b"\x05\x00"
    assert wathread.replay(add, run.record).memory is None


def test_a_run_is_the_one_of_its_number(lock):
    one, same, other = (wathread.run(lock, "main", seed=4, number=it) for it in (13, 13, 1))
    assert one == same and one.end == END_OF_ONE and other.end != one.end
    assert wathread.run(lock, "main", seed=4, number=13, keep_record=False).record == b""


def test_all_kinds_of_bytes_are_taken(add):
    record = wathread.run(bytearray(add), "f").record
    assert wathread.replay(memoryview(add), memoryview(record)).ends[0].value == 0


def test_arguments(examples):
    fac = (examples / "fac.wasm").read_bytes()
    assert wathread.run(fac, "fac", [wathread.i64(5)]).end == wathread.End(wathread.Kind.I64, 120)
    with pytest.raises(wathread.CallRefused, match="wrong arguments"):
        wathread.run(fac, "fac", [5])
    assert wathread.i32(-1) == wathread.i32(2**32 - 1) == wathread.Word(2**32 - 1)
    assert wathread.i64(-1).bits == 2**64 - 1
    with pytest.raises(OverflowError):
        wathread.i32(2**32)
    with pytest.raises(OverflowError):
        wathread.i64(2**64)


def test_a_record_may_be_long(barrier):
    run = wathread.run(barrier, "main")
    assert len(run.record) > 1 << 16
    assert wathread.replay(barrier, run.record).status == run.status == wathread.Status.ENDED


def test_a_stop(add):
    run = wathread.run(add, "f", fuel=2)
    assert run.status == wathread.Status.ENDED and run.units == 2
    assert run.end.number == wathread.Stop.OUT_OF_FUEL and str(run.end) == "stop out of fuel" and not run.end.is_well


def test_a_trap(examples):
    module = (examples / "bugs/order.wasm").read_bytes()
    searched = wathread.search(module, "main")
    ends = [end for ending in searched.endings for end in ending.ends.values() if end.kind == wathread.Kind.TRAP]
    assert ends and {str(end) for end in ends} == {"trap unreachable"}


def test_search(examples, barrier):
    peterson = (examples / "search/peterson.wasm").read_bytes()
    found = wathread.search(peterson, "f", [1])
    assert found.is_complete and (found.states, found.endless, found.fair_runs) == (115, 0, "end")
    assert [str(it) for it in found.endings] == ["thread 0: ok i32:2; thread 1: ok; pages 1"]
    assert found.endings[0].memory is None
    assert len(wathread.search(peterson, "f", [1], dump=16).endings[0].memory) == 16
    assert not wathread.search(peterson, "f", [1], states=10).is_complete
    assert wathread.search(barrier, "main").endless == 10


@pytest.mark.parametrize(
    "call", [wathread.check, lambda it: wathread.run(it, "f"), lambda it: wathread.search(it, "f")]
)
def test_a_module_is_refused_with_kind_and_place(add, call):
    with pytest.raises(wathread.ModuleRefused) as refused:
        call(add[:5])
    it = refused.value
    assert (it.status, it.stage, it.number, it.offset, it.function) == (wathread.Status.NO_MODULE, "read", 1, 5, None)
    assert str(it) == "module refused: read 1 at 5"


def test_an_invalid_module_is_refused_with_its_place(add):
    # A body of one function that returns an i32, without a value.
    bad = bytes.fromhex("0061736d01000000010501600001 7f030201000a040102000b")
    with pytest.raises(wathread.ModuleRefused) as refused:
        wathread.check(bad)
    it = refused.value
    assert (it.stage, it.number, it.function, it.offset) == ("validity", 1, 0, None) and it.instruction is not None


def test_a_call_is_refused(add):
    for refuse, words in (
        (lambda: wathread.run(add, "g"), "unknown export"),
        (lambda: wathread.search(add, "f", [1]), "wrong arguments"),
        (lambda: wathread.run(add, "f", limit=0), "fuel or limit out of range"),
        (lambda: wathread.run(add, "f", fuel=10**12 + 1), "fuel or limit out of range"),
        (lambda: wathread.run(add, "f", seed=-1), "seed out of range"),
        (lambda: wathread.search(add, "f", states=1 << 32), "states out of range"),
    ):
        with pytest.raises(wathread.CallRefused, match=words):
            refuse()


def test_a_record_is_refused(add, lock):
    record = wathread.run(add, "f").record
    with pytest.raises(wathread.RecordRefused) as damaged:
        wathread.replay(add, record.replace(b"fuel", b"fool"))
    assert damaged.value.stage == "record" and damaged.value.fault
    with pytest.raises(wathread.RecordRefused) as others:
        wathread.replay(lock, record)
    assert others.value.stage == "replay"


def test_memory_that_is_refused():
    script = (
        "import resource, sys, wathread\n"
        "module = open(sys.argv[1], 'rb').read()\n"
        "wathread.check(module)\n"
        "size = int(open('/proc/self/statm').read().split()[0]) * 4096\n"
        "resource.setrlimit(resource.RLIMIT_AS, (size + (1 << 20), size + (1 << 20)))\n"
        "try:\n    wathread.search(module, 'main')\n"
        "except MemoryError as fault:\n    print(type(fault).__name__)\n"
    )
    module = Path(__file__).resolve().parents[3] / "examples/c/mutex.wasm"
    said = subprocess.run([sys.executable, "-c", script, str(module)], capture_output=True, text=True,
                          env={**os.environ, "PYTHONPATH": str(Path(wathread.__file__).parents[1])})
    assert said.stdout == "OutOfMemory\n", said.stderr


def test_threads_at_once(lock):
    ends = {it: wathread.run(lock, "main", seed=4, number=it) for it in range(1, 21)}
    with ThreadPoolExecutor(8) as pool:
        again = list(pool.map(lambda it: wathread.run(lock, "main", seed=4, number=it % 20 + 1), range(160)))
    assert all(it == ends[it.number] for it in again)


def test_a_library_that_is_missing(tmp_path):
    env = {**os.environ, "PYTHONPATH": str(Path(wathread.__file__).parents[1])}
    script = "import wathread\ntry:\n    wathread.check(b'')\nexcept wathread.LibraryMissing as it:\n    print(it)\n"
    for name in (str(tmp_path / "nothing.so"), os.__file__):
        said = subprocess.run([sys.executable, "-c", script], capture_output=True, text=True,
                              env={**env, "WATHREAD_LIBRARY": name})
        assert said.stdout.startswith("libwathread.so.0 isn't there") and name in said.stdout, said.stderr


def test_an_instance_keeps_its_memory(add):
    with wathread.Module(add) as module:
        counter, other = module.instance(), wathread.Instance(module)
        assert module.functions == 1
    assert counter.call("f").end.value == 0
    before = counter.memory
    second = counter.call("f")
    assert second.end.value == 5 and counter.pages == 1 and counter.read(0, 2) == b"\x0a\0"
    found = counter.search("f", dump=1)
    assert found.is_complete and [it.memory for it in found.endings] == [b"\x0f"] and counter.read(0, 1) == b"\x0a"
    with pytest.raises(wathread.RecordRefused):
        other.replay(second.record)
    other.memory = before
    assert other.replay(second.record).ends == {0: second.end} and other.memory == counter.memory
    counter.write(0, b"\x01\x02")
    assert counter.call("f", keep_record=False).end.value == 513


def test_an_instance_has_bounds(add):
    counter = wathread.Module(add).instance()
    for refuse in (
        lambda: counter.read(65536, 1),
        lambda: counter.read(-1, 1),
        lambda: counter.write(65535, b"ab"),
        lambda: setattr(counter, "memory", b"ab"),
    ):
        with pytest.raises(wathread.OutOfBounds):
            refuse()
    assert counter.read(65536, 0) == b"" and counter.memory == bytes(65536)
    for refuse, words in (
        (lambda: counter.call("g"), "unknown export"),
        (lambda: counter.call("f", [1]), "wrong arguments"),
        (lambda: counter.call("f", limit=0), "fuel or limit out of range"),
        (lambda: counter.search("g"), "unknown export"),
    ):
        with pytest.raises(wathread.CallRefused, match=words):
            refuse()
    assert counter.call("f").end.value == 0


def test_a_long_record_is_kept_with_its_call(barrier):
    instance, other = (wathread.Module(barrier).instance() for _ in range(2))
    run = instance.call("main")
    assert len(run.record) > 1 << 16
    assert other.replay(run.record).status == run.status and other.memory == instance.memory


def test_handles_are_closed(add):
    with pytest.raises(wathread.ModuleRefused):
        wathread.Module(add[:5])
    module = wathread.Module(add)
    with module.instance() as instance:
        assert instance.is_open
    module.close()
    module.close()
    for closed in (lambda: instance.call("f"), lambda: instance.pages, module.instance):
        with pytest.raises(ValueError):
            closed()


def test_instances_at_once(lock):
    with wathread.Module(lock) as module, ThreadPoolExecutor(8) as pool:
        ends = list(pool.map(lambda it: module.instance().call("main", seed=4, number=13).end, range(80)))
    assert set(ends) == {END_OF_ONE}


def test_the_structs_are_those_of_the_header():
    assert ctypes.sizeof(_library.Answer) == 40
    assert ctypes.sizeof(_library.RawWord) == 16
    assert ctypes.sizeof(_library.RawOptions) == 48
    assert ctypes.sizeof(_library.Handle) == 16
