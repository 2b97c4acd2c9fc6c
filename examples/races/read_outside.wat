;; The count at 0 is written under a lock, and read without it.
(module
  (import "wasi" "thread-spawn" (func $spawn (param i32) (result i32)))
  (memory 1 1 shared)
  ;; two threads, by the arguments 0 and 1; the answer is the word at 16
  (func (export "f") (result i32)
    (local $count i32)
    (drop (call $spawn (i32.const 0)))
    (drop (call $spawn (i32.const 1)))
    (block $all
      (loop $again
        (local.set $count (i32.atomic.load (i32.const 32)))
        (br_if $all (i32.eq (local.get $count) (i32.const 2)))
        (drop (memory.atomic.wait32 (i32.const 32) (local.get $count) (i64.const -1)))
        br $again))
    (i32.atomic.load (i32.const 16)))
  (func $lock
    (loop $again
      (if (i32.atomic.rmw.xchg (i32.const 8) (i32.const 1))
        (then
          (drop (memory.atomic.wait32 (i32.const 8) (i32.const 1) (i64.const -1)))
          (br $again)))))
  (func $unlock
    (i32.atomic.store (i32.const 8) (i32.const 0))
    (drop (memory.atomic.notify (i32.const 8) (i32.const 1))))
  (func $first
    call $lock
    (i32.store (i32.const 0) (i32.add (i32.load (i32.const 0)) (i32.const 1)))
    call $unlock)
  (func $second
    (i32.atomic.store (i32.const 16) (i32.load (i32.const 0))))
  (func (export "wasi_thread_start") (param $id i32) (param $arg i32)
    (if (local.get $arg)
      (then (call $second))
      (else (call $first)))
    (drop (i32.atomic.rmw.add (i32.const 32) (i32.const 1)))
    (drop (memory.atomic.notify (i32.const 32) (i32.const -1)))))
