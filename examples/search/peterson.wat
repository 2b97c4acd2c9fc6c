;; Peterson's lock: two threads each add 1 to the plain number at 12, so many times. A thread raises its flag (at 0 or 4),
;; gives the turn (at 8) to the other, and waits while the other's flag is up and it is the other's turn. The first waits until
;; the other has set the word at 16, and answers the number: all increments, if none was lost.
;; `./wathread search examples/search/peterson.wasm --invoke f --all 2`
(module
  (import "wasi" "thread-spawn" (func $spawn (param i32) (result i32)))
  (memory 1 1 shared)
  (func $work (param $me i32) (param $rounds i32)
    (local $other i32)
    (local.set $other (i32.sub (i32.const 1) (local.get $me)))
    (loop $next
      (i32.atomic.store (i32.shl (local.get $me) (i32.const 2)) (i32.const 1))
      (i32.atomic.store (i32.const 8) (local.get $other))
      (block $mine
        (loop $again
          (br_if $mine (i32.eqz (i32.atomic.load (i32.shl (local.get $other) (i32.const 2)))))
          (br_if $again (i32.eq (i32.atomic.load (i32.const 8)) (local.get $other)))))
      (i32.store (i32.const 12) (i32.add (i32.load (i32.const 12)) (i32.const 1)))
      (i32.atomic.store (i32.shl (local.get $me) (i32.const 2)) (i32.const 0))
      (local.set $rounds (i32.sub (local.get $rounds) (i32.const 1)))
      (br_if $next (local.get $rounds))))
  (func (export "f") (param $rounds i32) (result i32)
    (drop (call $spawn (local.get $rounds)))
    (call $work (i32.const 0) (local.get $rounds))
    (drop (memory.atomic.wait32 (i32.const 16) (i32.const 0) (i64.const -1)))
    (i32.load (i32.const 12)))
  (func (export "wasi_thread_start") (param $id i32) (param $rounds i32)
    (call $work (i32.const 1) (local.get $rounds))
    (i32.atomic.store (i32.const 16) (i32.const 1))
    (drop (memory.atomic.notify (i32.const 16) (i32.const 1)))))
