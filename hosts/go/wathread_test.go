package wathread

import (
	"bytes"
	"errors"
	"os"
	"path/filepath"
	"strings"
	"sync"
	"testing"
)

func example(t *testing.T, name string) []byte {
	t.Helper()
	data, err := os.ReadFile(filepath.Join("..", "..", "examples", name))
	if err != nil {
		t.Fatal(err)
	}
	return data
}

func made(t *testing.T, module []byte, name string, args ...Word) RunResult {
	t.Helper()
	run, err := Run(module, name, args, DefaultOptions())
	if err != nil {
		t.Fatal(err)
	}
	return run
}

func TestCheck(t *testing.T) {
	object, err := Check(example(t, "atomic_add.wasm"))
	if err != nil || string(object) != "{\"status\":0,\"functions\":1}\n" {
		t.Error(string(object), err)
	}
}

func TestRunAndReplay(t *testing.T) {
	module := example(t, "atomic_add.wasm")
	run := made(t, module, "f")
	if !run.IsWell || run.End != (End{Kind: I32}) || !bytes.HasSuffix(run.Record, []byte("finish\n")) {
		t.Error(run)
	}
	again, err := Replay(module, run.Record, true)
	if err != nil || !again.IsWell || len(again.Memory) != 65536 || again.Memory[0] != 5 {
		t.Error(err, len(again.Memory))
	}
	if !strings.Contains(string(again.Object), `"outcome":{"ok":{"i32":0}}`) {
		t.Error(string(again.Object))
	}
	if again, err = Replay(module, run.Record, false); err != nil || again.Memory != nil {
		t.Error(err, len(again.Memory))
	}
}

func TestArguments(t *testing.T) {
	fac := example(t, "fac.wasm")
	if end := made(t, fac, "fac", Int64(5)).End; end.String() != "ok i64:120" {
		t.Error(end)
	}
	var refused *CallError
	_, err := Run(fac, "fac", []Word{Int32(5)}, DefaultOptions())
	if !errors.As(err, &refused) || refused.Fault != "wrong arguments" {
		t.Error(err)
	}
}

func TestLongRecord(t *testing.T) {
	barrier := example(t, "bugs/barrier.wasm")
	run := made(t, barrier, "main")
	if run.IsWell || len(run.Record) <= 1<<16 {
		t.Error(run.End, len(run.Record))
	}
	if again, err := Replay(barrier, run.Record, false); err != nil || again.IsWell {
		t.Error(err)
	}
}

func TestStop(t *testing.T) {
	options := DefaultOptions()
	options.Fuel, options.DropRecord = 2, true
	run, err := Run(example(t, "atomic_add.wasm"), "f", nil, options)
	if err != nil || run.IsWell || run.End.String() != "stop 1" || run.Units != 2 || run.Record != nil {
		t.Error(run, err)
	}
}

func TestSearch(t *testing.T) {
	peterson, options := example(t, "search/peterson.wasm"), DefaultOptions()
	found, err := Search(peterson, "f", []Word{Int32(1)}, options)
	if err != nil || !found.IsWell || !found.IsComplete() || found.States != 115 {
		t.Error(string(found.Object), err)
	}
	options.States = 10
	found, err = Search(peterson, "f", []Word{Int32(1)}, options)
	if err != nil || found.IsWell || found.IsComplete() {
		t.Error(string(found.Object), err)
	}
}

func TestModuleRefused(t *testing.T) {
	module := example(t, "atomic_add.wasm")[:5]
	_, checked := Check(module)
	_, run := Run(module, "f", nil, DefaultOptions())
	_, searched := Search(module, "f", nil, DefaultOptions())
	for _, err := range []error{checked, run, searched} {
		var refused *ModuleError
		if !errors.As(err, &refused) || refused.Stage != "read" || refused.Number != 1 || *refused.Offset != 5 {
			t.Error(err)
		}
	}
	if _, err := Check(nil); err == nil || err.Error() != "module refused: read 1 at 0" {
		t.Error(err)
	}
}

func TestCallRefused(t *testing.T) {
	module, none := example(t, "atomic_add.wasm"), DefaultOptions()
	if _, err := Run(module, "g", nil, none); err == nil || err.Error() != "call refused: unknown export" {
		t.Error(err)
	}
	none.Limit = 0
	if _, err := Run(module, "f", nil, none); err == nil || err.Error() != "call refused: fuel or limit out of range" {
		t.Error(err)
	}
}

func TestRecordRefused(t *testing.T) {
	module := example(t, "atomic_add.wasm")
	record := made(t, module, "f").Record
	var refused *RecordError
	if _, err := Replay(module, record[:len(record)-1], false); !errors.As(err, &refused) || refused.Fault == "" {
		t.Error(err)
	}
	if _, err := Replay(example(t, "c/broken_lock.wasm"), record, false); !errors.As(err, &refused) {
		t.Error(err)
	}
}

func TestAtOnce(t *testing.T) {
	lock, options := example(t, "c/broken_lock.wasm"), DefaultOptions()
	options.Seed, options.Run, options.DropRecord = 4, 13, true
	var all sync.WaitGroup
	for n := 0; n < 8; n++ {
		all.Add(1)
		go func() {
			defer all.Done()
			for call := 0; call < 10; call++ {
				if run, err := Run(lock, "main", nil, options); err != nil || run.End.String() != "ok i32:1" {
					t.Error(run, err)
				}
			}
		}()
	}
	all.Wait()
}

func opened(t *testing.T, name string) *Instance {
	t.Helper()
	module, err := OpenModule(example(t, name))
	if err != nil {
		t.Fatal(err)
	}
	defer module.Close()
	instance, err := module.Instance()
	if err != nil {
		t.Fatal(err)
	}
	return instance
}

func called(t *testing.T, instance *Instance) RunResult {
	t.Helper()
	run, err := instance.Call("f", nil, DefaultOptions())
	if err != nil {
		t.Fatal(err)
	}
	return run
}

func TestMemoryStays(t *testing.T) {
	counter, other := opened(t, "atomic_add.wasm"), opened(t, "atomic_add.wasm")
	if end := called(t, counter).End; end != (End{Kind: I32}) {
		t.Error(end)
	}
	before, err := counter.Memory()
	second := called(t, counter)
	if err != nil || second.End != (End{Kind: I32, Value: 5}) || counter.Pages() != 1 {
		t.Error(err, second)
	}
	if _, err := other.Replay(second.Record); err == nil {
		t.Error("a record of another memory was replayed")
	}
	if err := other.SetMemory(before); err != nil {
		t.Error(err)
	}
	again, err := other.Replay(second.Record)
	if err != nil || !again.IsWell || !strings.Contains(string(again.Object), `"outcome":{"ok":{"i32":5}}`) {
		t.Error(err, string(again.Object))
	}
	first, err := other.Read(0, 2)
	if err != nil || !bytes.Equal(first, []byte{10, 0}) {
		t.Error(err, first)
	}
	if err := counter.Write(0, []byte{1, 2}); err != nil || called(t, counter).End.Value != 513 {
		t.Error(err)
	}
}

func TestInstanceRefused(t *testing.T) {
	counter := opened(t, "atomic_add.wasm")
	_, read := counter.Read(65536, 1)
	for _, err := range []error{read, counter.Write(65535, []byte{1, 2}), counter.SetMemory([]byte{1, 2})} {
		if err != ErrOutOfBounds {
			t.Error(err)
		}
	}
	if _, err := counter.Call("g", nil, DefaultOptions()); err == nil || err.Error() != "call refused: unknown export" {
		t.Error(err)
	}
	found, err := counter.Search("f", nil, DefaultOptions())
	if err != nil || !found.IsWell || !found.IsComplete() {
		t.Error(string(found.Object), err)
	}
	counter.Close()
	counter.Close()
	if _, err := counter.Call("f", nil, DefaultOptions()); err != ErrClosed {
		t.Error(err)
	}
	if _, err := OpenModule(example(t, "atomic_add.wasm")[:5]); err == nil {
		t.Error("a module that is cut was opened")
	}
}
