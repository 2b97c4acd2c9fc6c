;; A futex mutex at 0 (0 free, 1 taken, 2 taken and somebody may wait) and a condition at 4 (a sequence number, which a
;; signal moves on). Three producers each put 50 items, by adding 1 to the number of items at 8 under the mutex and
;; signalling the condition; the first thread takes 150 items, waiting on the condition where there is none, and
;; answers how many it took. `./wathread run examples/condition.wasm --invoke f --dump 12`
(module
  (import "wasi" "thread-spawn" (func $spawn (param i32) (result i32)))
  (memory 1 1 shared)
  (func $lock
    (local $state i32)
    (local.set $state (i32.atomic.rmw.cmpxchg (i32.const 0) (i32.const 0) (i32.const 1)))
    (block $mine
      (br_if $mine (i32.eqz (local.get $state)))
      (loop $again
        ;; say that somebody waits; it was free meanwhile if 0 was found
        (br_if $mine (i32.eqz (i32.atomic.rmw.xchg (i32.const 0) (i32.const 2))))
        (drop (memory.atomic.wait32 (i32.const 0) (i32.const 2) (i64.const -1)))
        br $again)))
  (func $unlock
    (if (i32.eq (i32.atomic.rmw.xchg (i32.const 0) (i32.const 0)) (i32.const 2))
      (then (drop (memory.atomic.notify (i32.const 0) (i32.const 1))))))
  ;; gives the mutex up, sleeps until the sequence number moves, and takes the mutex again
  (func $wait
    (local $sequence i32)
    (local.set $sequence (i32.atomic.load (i32.const 4)))
    call $unlock
    (drop (memory.atomic.wait32 (i32.const 4) (local.get $sequence) (i64.const -1)))
    call $lock)
  (func $signal
    (drop (i32.atomic.rmw.add (i32.const 4) (i32.const 1)))
    (drop (memory.atomic.notify (i32.const 4) (i32.const 1))))
  (func (export "f") (result i32)
    (local $i i32) (local $taken i32)
    (loop $spawn_all
      (drop (call $spawn (local.get $i)))
      (local.set $i (i32.add (local.get $i) (i32.const 1)))
      (br_if $spawn_all (i32.lt_u (local.get $i) (i32.const 3))))
    (loop $take
      call $lock
      (block $some
        (loop $until
          (br_if $some (i32.load (i32.const 8)))
          call $wait
          br $until))
      (i32.store (i32.const 8) (i32.sub (i32.load (i32.const 8)) (i32.const 1)))
      call $unlock
      (local.set $taken (i32.add (local.get $taken) (i32.const 1)))
      (br_if $take (i32.lt_u (local.get $taken) (i32.const 150))))
    local.get $taken)
  (func (export "wasi_thread_start") (param $id i32) (param $arg i32)
    (local $left i32)
    (local.set $left (i32.const 50))
    (loop $next
      call $lock
      (i32.store (i32.const 8) (i32.add (i32.load (i32.const 8)) (i32.const 1)))
      call $signal
      call $unlock
      (local.set $left (i32.sub (local.get $left) (i32.const 1)))
      (br_if $next (local.get $left)))))
