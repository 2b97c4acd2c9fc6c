;; A store of eight bytes from 4 on, over the border of two words, and a load of the byte at 11.
(module
  (import "wasi" "thread-spawn" (func $spawn (param i32) (result i32)))
  (memory 1 1 shared)
  ;; two threads, by the arguments 0 and 1; the answer is the word at 16
  (func (export "f") (result i32)
    (local $count i32)
    (drop (call $spawn (i32.const 0)))
    (drop (call $spawn (i32.const 1)))
    (block $all
      (loop $again
        (local.set $count (i32.atomic.load (i32.const 32)))
        (br_if $all (i32.eq (local.get $count) (i32.const 2)))
        (drop (memory.atomic.wait32 (i32.const 32) (local.get $count) (i64.const -1)))
        br $again))
    (i32.atomic.load (i32.const 16)))
  (func $first
    (i64.store (i32.const 4) (i64.const -1)))
  (func $second
    (i32.atomic.store (i32.const 16) (i32.load8_u (i32.const 11))))
  (func (export "wasi_thread_start") (param $id i32) (param $arg i32)
    (if (local.get $arg)
      (then (call $second))
      (else (call $first)))
    (drop (i32.atomic.rmw.add (i32.const 32) (i32.const 1)))
    (drop (memory.atomic.notify (i32.const 32) (i32.const -1)))))
