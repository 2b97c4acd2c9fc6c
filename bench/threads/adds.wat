;; Starts threads that each add 1 to a word so many times: all to one word where the stride is 0, else each to a word of
;; its own. It waits until all are done, and answers the sum of their words.
(module
  (import "env" "memory" (memory 1 1 shared))
  (import "wasi" "thread-spawn" (func $spawn (param i32) (result i32)))
  ;; at 0 the stride in bytes, at 4 the times, at 64 how many threads are done, from 1024 on the words

  (func $word (param $place i32) (result i32)
    (i32.add (i32.const 1024) (i32.mul (local.get $place) (i32.load (i32.const 0)))))

  (func (export "run") (param $threads i32) (param $stride i32) (param $times i32) (result i32)
    (local $place i32) (local $done i32) (local $sum i32)
    (i32.store (i32.const 0) (local.get $stride))
    (i32.store (i32.const 4) (local.get $times))
    (loop $next
      (drop (call $spawn (local.get $place)))
      (br_if $next (i32.lt_u (local.tee $place (i32.add (local.get $place) (i32.const 1))) (local.get $threads))))
    (loop $again
      (local.set $done (i32.atomic.load (i32.const 64)))
      (if (i32.ne (local.get $done) (local.get $threads))
        (then
          (drop (memory.atomic.wait32 (i32.const 64) (local.get $done) (i64.const -1)))
          br $again)))
    (if (i32.eqz (local.get $stride))
      (then (return (i32.atomic.load (i32.const 1024)))))
    (local.set $place (i32.const 0))
    (loop $next
      (local.set $sum (i32.add (local.get $sum) (i32.atomic.load (call $word (local.get $place)))))
      (br_if $next (i32.lt_u (local.tee $place (i32.add (local.get $place) (i32.const 1))) (local.get $threads))))
    local.get $sum)

  (func (export "wasi_thread_start") (param $id i32) (param $place i32)
    (local $addr i32) (local $times i32)
    (local.set $addr (call $word (local.get $place)))
    (local.set $times (i32.load (i32.const 4)))
    (loop $next
      (drop (i32.atomic.rmw.add (local.get $addr) (i32.const 1)))
      (br_if $next (local.tee $times (i32.sub (local.get $times) (i32.const 1)))))
    (drop (i32.atomic.rmw.add (i32.const 64) (i32.const 1)))
    (drop (memory.atomic.notify (i32.const 64) (i32.const 1)))))
