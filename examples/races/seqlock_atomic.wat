;; A seqlock whose data at 0 is atomic.
(module
  (import "wasi" "thread-spawn" (func $spawn (param i32) (result i32)))
  (memory 1 1 shared)
  ;; two threads, by the arguments 0 and 1; the answer is the word at 16
  (func (export "f") (result i32)
    (local $count i32)
    (drop (call $spawn (i32.const 0)))
    (drop (call $spawn (i32.const 1)))
    (block $all
      (loop $again
        (local.set $count (i32.atomic.load (i32.const 32)))
        (br_if $all (i32.eq (local.get $count) (i32.const 2)))
        (drop (memory.atomic.wait32 (i32.const 32) (local.get $count) (i64.const -1)))
        br $again))
    (i32.atomic.load (i32.const 16)))
  (func $first
    (drop (i32.atomic.rmw.add (i32.const 4) (i32.const 1)))
    (i32.atomic.store (i32.const 0) (i32.const 7))
    (drop (i32.atomic.rmw.add (i32.const 4) (i32.const 1))))
  (func $second
    (local $count i32) (local $data i32)
    (local.set $count (i32.atomic.load (i32.const 4)))
    (local.set $data (i32.atomic.load (i32.const 0)))
    (if (i32.eq (i32.atomic.load (i32.const 4)) (local.get $count))
      (then (i32.atomic.store (i32.const 16) (local.get $data)))))
  (func (export "wasi_thread_start") (param $id i32) (param $arg i32)
    (if (local.get $arg)
      (then (call $second))
      (else (call $first)))
    (drop (i32.atomic.rmw.add (i32.const 32) (i32.const 1)))
    (drop (memory.atomic.notify (i32.const 32) (i32.const -1)))))
