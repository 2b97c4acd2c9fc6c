// Package wathread runs WebAssembly modules with threads, keeps runs and makes them again, by the library for hosts.
//
// It links the archive of the checkout that it lies in, or with the build tag wathread_pkgconfig what pkg-config says.
// The calls may be made on several goroutines at once.
package wathread

// #include "wathread.h"
import "C"

import (
	"encoding/json"
	"errors"
	"fmt"
	"unsafe"
)

// Kind says how a thread ended.
type Kind uint32

const (
	None Kind = C.WATHREAD_NONE
	Void Kind = C.WATHREAD_VOID
	I32  Kind = C.WATHREAD_I32
	I64  Kind = C.WATHREAD_I64
	Trap Kind = C.WATHREAD_TRAP
	Stop Kind = C.WATHREAD_STOP
)

// Strategy says who goes on, whenever more than one thread can.
type Strategy uint32

const (
	Mix        Strategy = C.WATHREAD_MIX
	Random     Strategy = C.WATHREAD_RANDOM
	Priorities Strategy = C.WATHREAD_PRIORITIES
	Spin       Strategy = C.WATHREAD_SPIN
)

// Word is an argument: an i64 where it is wide, and else an i32.
type Word struct {
	Bits   uint64
	IsWide bool
}

// Int32 is an argument that is an i32.
func Int32(value int32) Word { return Word{uint64(uint32(value)), false} }

// Int64 is an argument that is an i64.
func Int64(value int64) Word { return Word{uint64(value), true} }

// Options of a run or a search, as wathread.h has them. Begin with DefaultOptions.
type Options struct {
	Seed, Run, Fuel     uint64
	Limit               uint32
	Strategy            Strategy
	Depth, States, Dump uint32
	DropRecord          bool // of a run: it gives no record
}

// DefaultOptions fit most calls.
func DefaultOptions() Options {
	return Options{Seed: 1, Run: 1, Fuel: 10000000, Limit: 10000, Strategy: Mix, Depth: 3, States: 1000000}
}

func (o Options) raw() C.struct_wathread_options {
	return C.struct_wathread_options{
		seed: C.uint64_t(o.Seed), run: C.uint64_t(o.Run), fuel: C.uint64_t(o.Fuel), limit: C.uint32_t(o.Limit),
		strategy: C.uint32_t(o.Strategy), depth: C.uint32_t(o.Depth), states: C.uint32_t(o.States),
		dump: C.uint32_t(o.Dump),
	}
}

// End says how thread 0 ended: with Value where it returned an i32 or i64, with Number where it trapped or was stopped.
type End struct {
	Kind   Kind
	Value  uint64
	Number uint32
}

func (e End) String() string {
	switch e.Kind {
	case I32:
		return fmt.Sprintf("ok i32:%d", e.Value)
	case I64:
		return fmt.Sprintf("ok i64:%d", e.Value)
	case Trap:
		return fmt.Sprintf("trap %d", e.Number)
	case Stop:
		return fmt.Sprintf("stop %d", e.Number)
	case Void:
		return "ok"
	}
	return "none"
}

// RunResult is what a run came to. IsWell says whether all threads ended well.
type RunResult struct {
	IsWell bool
	End    End
	Units  uint64
	Record []byte
}

// ReplayResult is what a run came to that was made again: Object says what became of each thread.
type ReplayResult struct {
	IsWell bool
	Object json.RawMessage
	Memory []byte
}

// SearchResult is what a search through every order came to. IsWell says whether all endings are known and well.
type SearchResult struct {
	IsWell  bool
	Verdict string
	States  uint64
	Object  json.RawMessage
}

// IsComplete says whether no run by the call ends otherwise than the endings of the object.
func (s SearchResult) IsComplete() bool { return s.Verdict == "all" }

// ErrNoMemory says that the system refused memory.
var ErrNoMemory = errors.New("no memory")

// ModuleError says that the bytes are no valid module's, with the kind and the place of the first fault, by the tables
// of docs/LIMITS.md. Stage is "read", with an Offset, or "validity", in a body with Function and Instruction.
type ModuleError struct {
	Stage                         string
	Number                        uint64
	Offset, Function, Instruction *uint64
	Object                        json.RawMessage
}

func (e *ModuleError) Error() string {
	switch {
	case e.Offset != nil:
		return fmt.Sprintf("module refused: %s %d at %d", e.Stage, e.Number, *e.Offset)
	case e.Function != nil && e.Instruction != nil:
		return fmt.Sprintf("module refused: %s %d in function %d at %d", e.Stage, e.Number, *e.Function, *e.Instruction)
	}
	return fmt.Sprintf("module refused: %s %d", e.Stage, e.Number)
}

// CallError says that no such function is exported, that the arguments don't fit, or that a number is out of its range.
type CallError struct {
	Fault  string
	Object json.RawMessage
}

func (e *CallError) Error() string { return "call refused: " + e.Fault }

// RecordError says that the bytes are no record's, or that it is of no run of the module: Line is the first wrong one,
// where one is named.
type RecordError struct {
	Fault  string
	Line   *uint64
	Object json.RawMessage
}

func (e *RecordError) Error() string { return "record refused: " + e.Fault }

const (
	firstText   = 1 << 14
	firstRecord = 1 << 15
	firstMemory = 1 << 17
)

var outOfRange = json.RawMessage(`{"status":3,"refused":{"stage":"call","fault":"fuel or limit out of range"}}`)

func refusal(status C.uint32_t, object json.RawMessage) error {
	var it struct {
		Refused struct {
			Stage, Fault                        string
			Number                              uint64
			Offset, Function, Instruction, Line *uint64
		}
	}
	if err := json.Unmarshal(object, &it); err != nil {
		return err
	}
	r := it.Refused
	switch status {
	case C.WATHREAD_NO_MODULE:
		return &ModuleError{r.Stage, r.Number, r.Offset, r.Function, r.Instruction, object}
	case C.WATHREAD_NO_CALL:
		return &CallError{r.Fault, object}
	}
	return &RecordError{r.Fault, r.Line, object}
}

// start gives a pointer to the first of some bytes, which isn't nil either where there are none.
func start(bytes []byte) *C.uint8_t {
	if len(bytes) == 0 {
		return new(C.uint8_t)
	}
	return (*C.uint8_t)(unsafe.Pointer(&bytes[0]))
}

func words(args []Word) (*C.struct_wathread_word, C.size_t) {
	raw := make([]C.struct_wathread_word, len(args)+1)
	for n, it := range args {
		raw[n].bits = C.uint64_t(it.Bits)
		if it.IsWide {
			raw[n].is_wide = 1
		}
	}
	return &raw[0], C.size_t(len(args))
}

// withText makes a call that writes a text, once more where that wants more room.
func withText(call func(text []byte, answer *C.struct_wathread_answer) C.uint32_t) (bool, json.RawMessage, error) {
	text := make([]byte, firstText)
	for {
		var answer C.struct_wathread_answer
		status := call(text, &answer)
		if status == C.WATHREAD_FAILED {
			return false, nil, ErrNoMemory
		}
		if int(answer.text) > len(text) {
			text = make([]byte, answer.text)
			continue
		}
		object := json.RawMessage(text[:answer.text])
		if status > C.WATHREAD_ENDED {
			return false, nil, refusal(status, object)
		}
		return status == C.WATHREAD_WELL, object, nil
	}
}

// Check reads and validates a module, and gives its object of JSON.
func Check(module []byte) (json.RawMessage, error) {
	_, object, err := withText(func(text []byte, answer *C.struct_wathread_answer) C.uint32_t {
		return C.wathread_check(start(module), C.size_t(len(module)), start(text), C.size_t(len(text)), answer)
	})
	return object, err
}

// Run makes the run of options.Run by options.Seed, the same one on every machine.
func Run(module []byte, name string, args []Word, options Options) (RunResult, error) {
	raw, called := options.raw(), []byte(name)
	first, count := words(args)
	made, status := madeBy(options.DropRecord, func(record []byte, answer *C.struct_wathread_answer) C.uint32_t {
		return C.wathread_run(start(module), C.size_t(len(module)), start(called), C.size_t(len(called)), first, count,
			&raw, start(record), C.size_t(len(record)), answer)
	})
	if status > C.WATHREAD_ENDED {
		return RunResult{}, runRefusal(status, module, name, args)
	}
	return made, nil
}

// madeBy makes a run, once more where its record wants more room, and gives its status.
func madeBy(dropRecord bool, call func([]byte, *C.struct_wathread_answer) C.uint32_t) (RunResult, C.uint32_t) {
	var record []byte
	if !dropRecord {
		record = make([]byte, firstRecord)
	}
	for {
		var answer C.struct_wathread_answer
		status := call(record, &answer)
		if status > C.WATHREAD_ENDED {
			return RunResult{}, status
		}
		if !dropRecord && int(answer.bytes) > len(record) {
			record = make([]byte, answer.bytes)
			continue
		}
		if !dropRecord {
			record = record[:answer.bytes]
		}
		end := End{Kind(answer.kind), uint64(answer.value), uint32(answer.number)}
		return RunResult{status == C.WATHREAD_WELL, end, uint64(answer.units), record}, status
	}
}

// runRefusal is what a run was refused for, which has no object: a check has that of a module, a search that of a call.
func runRefusal(status C.uint32_t, module []byte, name string, args []Word) error {
	if status == C.WATHREAD_FAILED {
		return ErrNoMemory
	}
	if _, err := Check(module); err != nil {
		return err
	}
	none := DefaultOptions()
	none.States = 0
	if _, err := Search(module, name, args, none); err != nil {
		return err
	}
	return refusal(C.WATHREAD_NO_CALL, outOfRange)
}

// Replay makes the run of a record again, and gives the memory's bytes where they are wanted.
func Replay(module, record []byte, withMemory bool) (ReplayResult, error) {
	var memory []byte
	if withMemory {
		memory = make([]byte, firstMemory)
	}
	for {
		wanted := 0
		isWell, object, err := withText(func(text []byte, answer *C.struct_wathread_answer) C.uint32_t {
			status := C.wathread_replay(start(module), C.size_t(len(module)), start(record), C.size_t(len(record)),
				start(memory), C.size_t(len(memory)), start(text), C.size_t(len(text)), answer)
			wanted = int(answer.bytes)
			return status
		})
		if err != nil {
			return ReplayResult{}, err
		}
		if withMemory && wanted > len(memory) {
			memory = make([]byte, wanted)
			continue
		}
		if withMemory {
			memory = memory[:wanted]
		}
		return ReplayResult{isWell, object, memory}, nil
	}
}

// Search goes through every order of the threads' entries, and tells all endings.
func Search(module []byte, name string, args []Word, options Options) (SearchResult, error) {
	raw, called := options.raw(), []byte(name)
	first, count := words(args)
	return found(withText(func(text []byte, answer *C.struct_wathread_answer) C.uint32_t {
		return C.wathread_search(start(module), C.size_t(len(module)), start(called), C.size_t(len(called)), first, count,
			&raw, start(text), C.size_t(len(text)), answer)
	}))
}
