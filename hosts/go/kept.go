package wathread

// #include "wathread.h"
import "C"

import (
	"encoding/json"
	"errors"
	"runtime"
	"sync"
)

// ErrOutOfBounds says that bytes don't lie within an instance's memory, or can't be the whole of it.
var ErrOutOfBounds = errors.New("out of the memory's bounds")

// ErrClosed says that a module or an instance is closed.
var ErrClosed = errors.New("closed")

const page = 1 << 16

// Module is a module that is read and validated once. It may be used on several goroutines.
type Module struct {
	lock sync.Mutex
	raw  C.struct_wathread_module
}

// Instance is a module with a memory that stays between calls. It has a share in the module, and may be used on several
// goroutines, which take turns.
type Instance struct {
	lock sync.Mutex
	raw  C.struct_wathread_instance
}

// done is what a call without a text came to, of an open handle.
func done(status C.uint32_t) error {
	switch status {
	case C.WATHREAD_WELL:
		return nil
	case C.WATHREAD_FAILED:
		return ErrNoMemory
	}
	return ErrOutOfBounds
}

// OpenModule reads and validates a module. Close frees it.
func OpenModule(module []byte) (*Module, error) {
	made := new(Module)
	_, _, err := withText(func(text []byte, answer *C.struct_wathread_answer) C.uint32_t {
		return C.wathread_module_open(start(module), C.size_t(len(module)), &made.raw, start(text), C.size_t(len(text)),
			answer)
	})
	if err != nil {
		return nil, err
	}
	runtime.SetFinalizer(made, (*Module).Close)
	return made, nil
}

// Close frees the module, once its instances are closed too.
func (m *Module) Close() {
	m.lock.Lock()
	defer m.lock.Unlock()
	C.wathread_module_free(&m.raw)
}

// Instance makes an instance, whose memory is the one with which the module begins. Close frees it.
func (m *Module) Instance() (*Instance, error) {
	m.lock.Lock()
	defer m.lock.Unlock()
	if m.raw.is_open == 0 {
		return nil, ErrClosed
	}
	made := new(Instance)
	if err := done(C.wathread_instance_open(&m.raw, &made.raw)); err != nil {
		return nil, err
	}
	runtime.SetFinalizer(made, (*Instance).Close)
	return made, nil
}

// Close frees the instance.
func (i *Instance) Close() {
	i.lock.Lock()
	defer i.lock.Unlock()
	C.wathread_instance_free(&i.raw)
}

// Pages says how many pages of 65,536 bytes the memory has; none where the instance is closed.
func (i *Instance) Pages() int {
	i.lock.Lock()
	defer i.lock.Unlock()
	return int(C.wathread_instance_pages(&i.raw))
}

// Read gives bytes of the memory from an address on.
func (i *Instance) Read(address uint32, count int) ([]byte, error) {
	i.lock.Lock()
	defer i.lock.Unlock()
	return i.read(address, count)
}

func (i *Instance) read(address uint32, count int) ([]byte, error) {
	if i.raw.is_open == 0 {
		return nil, ErrClosed
	}
	if count < 0 {
		return nil, ErrOutOfBounds
	}
	bytes := make([]byte, count)
	err := done(C.wathread_instance_read(&i.raw, C.uint32_t(address), start(bytes), C.size_t(count)))
	return bytes, err
}

// Write puts bytes into the memory from an address on.
func (i *Instance) Write(address uint32, bytes []byte) error {
	i.lock.Lock()
	defer i.lock.Unlock()
	if i.raw.is_open == 0 {
		return ErrClosed
	}
	return done(C.wathread_instance_write(&i.raw, C.uint32_t(address), start(bytes), C.size_t(len(bytes))))
}

// Memory gives the whole memory.
func (i *Instance) Memory() ([]byte, error) {
	i.lock.Lock()
	defer i.lock.Unlock()
	return i.read(0, page*int(C.wathread_instance_pages(&i.raw)))
}

// SetMemory makes bytes the whole memory: as many whole pages as the module's memory can have.
func (i *Instance) SetMemory(bytes []byte) error {
	i.lock.Lock()
	defer i.lock.Unlock()
	if i.raw.is_open == 0 {
		return ErrClosed
	}
	return done(C.wathread_instance_set(&i.raw, start(bytes), C.size_t(len(bytes))))
}

// Call makes the run of options.Run by options.Seed that begins with this memory, which is then what the run left.
func (i *Instance) Call(name string, args []Word, options Options) (RunResult, error) {
	i.lock.Lock()
	defer i.lock.Unlock()
	if i.raw.is_open == 0 {
		return RunResult{}, ErrClosed
	}
	raw, called := options.raw(), []byte(name)
	first, count := words(args)
	made, status := madeBy(options.DropRecord, func(record []byte, answer *C.struct_wathread_answer) C.uint32_t {
		return C.wathread_call(&i.raw, start(called), C.size_t(len(called)), first, count, &raw, start(record),
			C.size_t(len(record)), answer)
	})
	if status <= C.WATHREAD_ENDED {
		return made, nil
	}
	if status == C.WATHREAD_FAILED {
		return RunResult{}, ErrNoMemory
	}
	none := DefaultOptions()
	none.States = 0
	if _, err := i.search(name, args, none); err != nil {
		return RunResult{}, err
	}
	return RunResult{}, refusal(C.WATHREAD_NO_CALL, outOfRange)
}

// Replay makes a call again by its record, which began with just this memory: that is then what the run left.
func (i *Instance) Replay(record []byte) (ReplayResult, error) {
	i.lock.Lock()
	defer i.lock.Unlock()
	if i.raw.is_open == 0 {
		return ReplayResult{}, ErrClosed
	}
	isWell, object, err := withText(func(text []byte, answer *C.struct_wathread_answer) C.uint32_t {
		return C.wathread_instance_replay(&i.raw, start(record), C.size_t(len(record)), start(text), C.size_t(len(text)),
			answer)
	})
	return ReplayResult{IsWell: isWell, Object: object}, err
}

// Search goes through every order of a call that begins with this memory, which stays.
func (i *Instance) Search(name string, args []Word, options Options) (SearchResult, error) {
	i.lock.Lock()
	defer i.lock.Unlock()
	if i.raw.is_open == 0 {
		return SearchResult{}, ErrClosed
	}
	return i.search(name, args, options)
}

func (i *Instance) search(name string, args []Word, options Options) (SearchResult, error) {
	raw, called := options.raw(), []byte(name)
	first, count := words(args)
	return found(withText(func(text []byte, answer *C.struct_wathread_answer) C.uint32_t {
		return C.wathread_instance_search(&i.raw, start(called), C.size_t(len(called)), first, count, &raw, start(text),
			C.size_t(len(text)), answer)
	}))
}

// found is what the text of a search says.
func found(isWell bool, object json.RawMessage, err error) (SearchResult, error) {
	if err != nil {
		return SearchResult{}, err
	}
	var it struct {
		Verdict string
		States  uint64
	}
	err = json.Unmarshal(object, &it)
	return SearchResult{IsWell: isWell, Verdict: it.Verdict, States: it.States, Object: object}, err
}
