;; A lock that isn't one: it waits until the flag at 0 is clear, and then sets it, in two steps. Two threads each add 1 to
;; the plain number at 4, so many times; an increment is lost where both found the flag clear. The first waits until the other
;; has set the word at 8, and answers the number.
;; `./wathread search examples/search/broken.wasm --invoke f --all 2`
(module
  (import "wasi" "thread-spawn" (func $spawn (param i32) (result i32)))
  (memory 1 1 shared)
  (func $work (param $rounds i32)
    (loop $next
      (loop $again
        (br_if $again (i32.atomic.load (i32.const 0))))
      ;; here another thread may come between
      (i32.atomic.store (i32.const 0) (i32.const 1))
      (i32.store (i32.const 4) (i32.add (i32.load (i32.const 4)) (i32.const 1)))
      (i32.atomic.store (i32.const 0) (i32.const 0))
      (local.set $rounds (i32.sub (local.get $rounds) (i32.const 1)))
      (br_if $next (local.get $rounds))))
  (func (export "f") (param $rounds i32) (result i32)
    (drop (call $spawn (local.get $rounds)))
    (call $work (local.get $rounds))
    (drop (memory.atomic.wait32 (i32.const 8) (i32.const 0) (i64.const -1)))
    (i32.load (i32.const 4)))
  (func (export "wasi_thread_start") (param $id i32) (param $rounds i32)
    (call $work (local.get $rounds))
    (i32.atomic.store (i32.const 8) (i32.const 1))
    (drop (memory.atomic.notify (i32.const 8) (i32.const 1)))))
