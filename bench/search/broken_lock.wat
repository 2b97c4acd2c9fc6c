;; The lock of examples/broken_lock.wat, which isn't one, with two threads that add 1 five times each: 10 where nothing is lost.
(module
  (import "wasi" "thread-spawn" (func $spawn (param i32) (result i32)))
  (memory 1 1 shared)
  (func $lock
    (block $clear
      (loop $again
        (br_if $clear (i32.eqz (i32.atomic.load (i32.const 0))))
        (drop (memory.atomic.wait32 (i32.const 0) (i32.const 1) (i64.const -1)))
        br $again))
    ;; here another thread may come between
    (i32.atomic.store (i32.const 0) (i32.const 1)))
  (func $unlock
    (i32.atomic.store (i32.const 0) (i32.const 0))
    (drop (memory.atomic.notify (i32.const 0) (i32.const -1))))
  (func (export "run") (result i32)
    (local $i i32) (local $count i32)
    (loop $spawn_all
      (drop (call $spawn (local.get $i)))
      (local.set $i (i32.add (local.get $i) (i32.const 1)))
      (br_if $spawn_all (i32.lt_u (local.get $i) (i32.const 2))))
    (block $all
      (loop $again
        (local.set $count (i32.atomic.load (i32.const 8)))
        (br_if $all (i32.eq (local.get $count) (i32.const 2)))
        (drop (memory.atomic.wait32 (i32.const 8) (local.get $count) (i64.const -1)))
        br $again))
    i32.const 4
    i32.load)
  (func (export "wasi_thread_start") (param $id i32) (param $arg i32)
    (local $left i32)
    (local.set $left (i32.const 5))
    (loop $next
      call $lock
      (i32.store (i32.const 4) (i32.add (i32.load (i32.const 4)) (i32.const 1)))
      call $unlock
      (local.set $left (i32.sub (local.get $left) (i32.const 1)))
      (br_if $next (local.get $left)))
    (drop (i32.atomic.rmw.add (i32.const 8) (i32.const 1)))
    (drop (memory.atomic.notify (i32.const 8) (i32.const -1)))))
