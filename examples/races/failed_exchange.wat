;; A compare-exchange that fails is the only link. It reads: who makes it reads the letter at 0 behind the flag. It writes
;; nothing: what was written at 24 before it races with who reads that.
(module
  (import "wasi" "thread-spawn" (func $spawn (param i32) (result i32)))
  (memory 1 1 shared)
  ;; two threads, by the arguments 0 and 1; the answer is the word at 16
  (func (export "f") (result i32)
    (local $count i32)
    (drop (call $spawn (i32.const 0)))
    (drop (call $spawn (i32.const 1)))
    (block $all
      (loop $again
        (local.set $count (i32.atomic.load (i32.const 32)))
        (br_if $all (i32.eq (local.get $count) (i32.const 2)))
        (drop (memory.atomic.wait32 (i32.const 32) (local.get $count) (i64.const -1)))
        br $again))
    (i32.atomic.load (i32.const 16)))
  (func $first
    (i32.store (i32.const 0) (i32.const 7))
    (i32.atomic.store (i32.const 4) (i32.const 1))
    (drop (i32.atomic.load (i32.const 4)))
    (drop (i32.load (i32.const 24))))
  (func $second
    (i32.store (i32.const 24) (i32.const 9))
    (if (i32.atomic.rmw.cmpxchg (i32.const 4) (i32.const 5) (i32.const 6))
      (then (i32.atomic.store (i32.const 16) (i32.load (i32.const 0))))))
  (func (export "wasi_thread_start") (param $id i32) (param $arg i32)
    (if (local.get $arg)
      (then (call $second))
      (else (call $first)))
    (drop (i32.atomic.rmw.add (i32.const 32) (i32.const 1)))
    (drop (memory.atomic.notify (i32.const 32) (i32.const -1)))))
