;; Sixteen threads, each of which takes a lock so many times, and under it adds 1 to a word of its own and to one of all,
;; plainly. Of the last argument's lowest bit: whether the word of all is touched outside the lock.
(module
  (import "wasi" "thread-spawn" (func $spawn (param i32) (result i32)))
  (memory 1 1 shared)
  (func $add (param $at i32)
    (i32.store (local.get $at) (i32.add (i32.load (local.get $at)) (i32.const 1))))
  (func (export "run") (param $times i32) (param $outside i32) (result i32)
    (local $i i32) (local $count i32)
    (i32.store (i32.const 0) (local.get $times))
    (i32.store (i32.const 4) (local.get $outside))
    (loop $next
      (drop (call $spawn (local.get $i)))
      (br_if $next (i32.lt_u (local.tee $i (i32.add (local.get $i) (i32.const 1))) (i32.const 16))))
    (block $all
      (loop $again
        (local.set $count (i32.atomic.load (i32.const 12)))
        (br_if $all (i32.eq (local.get $count) (i32.const 16)))
        (drop (memory.atomic.wait32 (i32.const 12) (local.get $count) (i64.const -1)))
        (br $again)))
    (i32.load (i32.const 16)))
  (func (export "wasi_thread_start") (param $id i32) (param $arg i32)
    (local $left i32)
    (local.set $left (i32.load (i32.const 0)))
    (loop $next
      (if (i32.load (i32.const 4)) (then (call $add (i32.const 16))))
      (loop $again
        (if (i32.atomic.rmw.xchg (i32.const 8) (i32.const 1))
          (then
            (drop (memory.atomic.wait32 (i32.const 8) (i32.const 1) (i64.const -1)))
            (br $again))))
      (if (i32.eqz (i32.load (i32.const 4))) (then (call $add (i32.const 16))))
      (call $add (i32.add (i32.const 64) (i32.mul (local.get $arg) (i32.const 4))))
      (i32.atomic.store (i32.const 8) (i32.const 0))
      (drop (memory.atomic.notify (i32.const 8) (i32.const 1)))
      (br_if $next (local.tee $left (i32.sub (local.get $left) (i32.const 1)))))
    (drop (i32.atomic.rmw.add (i32.const 12) (i32.const 1)))
    (drop (memory.atomic.notify (i32.const 12) (i32.const -1)))))
