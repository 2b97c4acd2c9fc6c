// Checks a plug-in, makes 20 runs of it, keeps the record of the first that ends otherwise than run 1, and replays it.
// Then eight threads make these runs at once, 1,000 each, and each run has to end as it did before.
//
//	keep_run MODULE [CALLS]
package main

import (
	"bytes"
	"encoding/json"
	"errors"
	"fmt"
	"os"
	"strconv"
	"sync"
	"sync/atomic"

	"wathread.invalid/wathread"
)

const (
	seed    = 4
	runs    = 20
	threads = 8
)

func made(module []byte, number int, dropRecord bool) (wathread.RunResult, error) {
	options := wathread.DefaultOptions()
	options.Seed, options.Run, options.DropRecord = seed, uint64(number), dropRecord
	return wathread.Run(module, "main", nil, options)
}

// makeAtOnce makes the runs again, and counts those that end as before.
func makeAtOnce(module []byte, ends []wathread.End, calls int) int {
	var all sync.WaitGroup
	var alike int64
	for n := 0; n < threads; n++ {
		all.Add(1)
		go func() {
			defer all.Done()
			for call := 0; call < calls; call++ {
				if run, err := made(module, call%runs+1, true); err == nil && run.End == ends[call%runs] {
					atomic.AddInt64(&alike, 1)
				}
			}
		}()
	}
	all.Wait()
	return int(alike)
}

// outcome is that of thread 0 in an object of JSON.
func outcome(object json.RawMessage) string {
	var it struct {
		Threads []struct{ Outcome json.RawMessage }
	}
	if err := json.Unmarshal(object, &it); err != nil || len(it.Threads) == 0 {
		return "nothing"
	}
	return string(it.Threads[0].Outcome)
}

func work(path string, calls int) error {
	module, err := os.ReadFile(path)
	if err != nil {
		return err
	}
	object, err := wathread.Check(module)
	if err != nil {
		return err
	}
	fmt.Printf("check: %s\n", bytes.TrimSpace(object))
	var ends []wathread.End
	var record []byte
	kept := 0
	for number := 1; number <= runs; number++ {
		run, err := made(module, number, false)
		if err != nil {
			return err
		}
		ends = append(ends, run.End)
		if kept == 0 && run.End != ends[0] {
			kept, record = number, run.Record
		}
	}
	fmt.Printf("run 1: %v\n", ends[0])
	if kept == 0 {
		return errors.New("all runs end alike")
	}
	fmt.Printf("run %d: %v, a record of %d bytes\n", kept, ends[kept-1], len(record))
	again, err := wathread.Replay(module, record, false)
	if err != nil {
		return err
	}
	fmt.Printf("replay: %s\n", outcome(again.Object))
	alike := makeAtOnce(module, ends, calls)
	fmt.Printf("%d threads: %d of %d runs ended as before\n", threads, alike, threads*calls)
	if alike != threads*calls {
		return errors.New("a run ended otherwise")
	}
	return nil
}

func main() {
	calls := 1000
	if len(os.Args) > 2 {
		calls, _ = strconv.Atoi(os.Args[2])
	}
	if len(os.Args) < 2 || calls < 1 {
		fmt.Fprintln(os.Stderr, "keep_run MODULE [CALLS]")
		os.Exit(3)
	}
	if err := work(os.Args[1], calls); err != nil {
		fmt.Fprintln(os.Stderr, err)
		os.Exit(1)
	}
}
