;; A bounded queue of two slots, which sleeps where it is full or empty: two producers each put so many items, and two
;; consumers each take as many. Put so far stand at 0, taken at 4, the lock at 8, what was taken, summed, at 12, and the
;; slots at 16. Thread 0 is a producer, thread 1 another, threads 2 and 3 consume. Who takes the last item sets the word at
;; 24; the first sleeps until then, and answers the sum: 2 for one item each, 6 for two, if none was lost or taken twice.
;; `./wathread search examples/search/queue.wasm --invoke f --all 1`
(module
  (import "wasi" "thread-spawn" (func $spawn (param i32) (result i32)))
  (memory 1 1 shared)
  (func $lock
    (loop $again
      (if (i32.atomic.rmw.xchg (i32.const 8) (i32.const 1))
        (then
          (drop (memory.atomic.wait32 (i32.const 8) (i32.const 1) (i64.const -1)))
          br $again))))
  (func $unlock
    (i32.atomic.store (i32.const 8) (i32.const 0))
    (drop (memory.atomic.notify (i32.const 8) (i32.const 1))))
  (func $slot (param $n i32) (result i32)
    (i32.add (i32.const 16) (i32.shl (i32.and (local.get $n) (i32.const 1)) (i32.const 2))))
  (func $produce (param $items i32)
    (local $taken i32)
    (loop $next
      call $lock
      (local.set $taken (i32.load (i32.const 4)))
      (if (i32.eq (i32.sub (i32.load (i32.const 0)) (local.get $taken)) (i32.const 2))
        (then
          call $unlock
          (drop (memory.atomic.wait32 (i32.const 4) (local.get $taken) (i64.const -1)))
          br $next))
      (i32.store (call $slot (i32.load (i32.const 0))) (local.get $items))
      (i32.store (i32.const 0) (i32.add (i32.load (i32.const 0)) (i32.const 1)))
      (drop (memory.atomic.notify (i32.const 0) (i32.const -1)))
      call $unlock
      (local.set $items (i32.sub (local.get $items) (i32.const 1)))
      (br_if $next (local.get $items))))
  (func $consume (param $items i32)
    (local $put i32) (local $all i32)
    (local.set $all (i32.shl (local.get $items) (i32.const 1)))
    (loop $next
      call $lock
      (local.set $put (i32.load (i32.const 0)))
      (if (i32.eq (local.get $put) (i32.load (i32.const 4)))
        (then
          call $unlock
          (drop (memory.atomic.wait32 (i32.const 0) (local.get $put) (i64.const -1)))
          br $next))
      (i32.store (i32.const 12) (i32.add (i32.load (i32.const 12)) (i32.load (call $slot (i32.load (i32.const 4))))))
      (i32.store (i32.const 4) (i32.add (i32.load (i32.const 4)) (i32.const 1)))
      (drop (memory.atomic.notify (i32.const 4) (i32.const -1)))
      (if (i32.eq (i32.load (i32.const 4)) (local.get $all))
        (then
          (i32.atomic.store (i32.const 24) (i32.const 1))
          (drop (memory.atomic.notify (i32.const 24) (i32.const 1)))))
      call $unlock
      (local.set $items (i32.sub (local.get $items) (i32.const 1)))
      (br_if $next (local.get $items))))
  (func (export "f") (param $items i32) (result i32)
    (drop (call $spawn (local.get $items)))
    (drop (call $spawn (local.get $items)))
    (drop (call $spawn (local.get $items)))
    (call $produce (local.get $items))
    (drop (memory.atomic.wait32 (i32.const 24) (i32.const 0) (i64.const -1)))
    (i32.load (i32.const 12)))
  (func (export "wasi_thread_start") (param $id i32) (param $items i32)
    (if (i32.eq (local.get $id) (i32.const 1))
      (then (call $produce (local.get $items)))
      (else (call $consume (local.get $items))))))
