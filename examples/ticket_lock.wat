;; A ticket lock: who wants it draws a number at 0, and has it when that number is served at 4. Who waits sleeps until
;; the number served changes. Four threads each add 1 a hundred times to the plain number at 8 under the lock, and count
;; themselves at 12; the first thread waits for them and answers the sum, 400 on every schedule.
;; `./wathread run examples/ticket_lock.wasm --invoke f --dump 16`
(module
  (import "wasi" "thread-spawn" (func $spawn (param i32) (result i32)))
  (memory 1 1 shared)
  (func $lock
    (local $ticket i32) (local $served i32)
    (local.set $ticket (i32.atomic.rmw.add (i32.const 0) (i32.const 1)))
    (block $mine
      (loop $again
        (local.set $served (i32.atomic.load (i32.const 4)))
        (br_if $mine (i32.eq (local.get $served) (local.get $ticket)))
        (drop (memory.atomic.wait32 (i32.const 4) (local.get $served) (i64.const -1)))
        br $again)))
  (func $unlock
    (drop (i32.atomic.rmw.add (i32.const 4) (i32.const 1)))
    (drop (memory.atomic.notify (i32.const 4) (i32.const -1))))
  (func (export "f") (result i32)
    (local $i i32) (local $count i32)
    (loop $spawn_all
      (drop (call $spawn (local.get $i)))
      (local.set $i (i32.add (local.get $i) (i32.const 1)))
      (br_if $spawn_all (i32.lt_u (local.get $i) (i32.const 4))))
    (block $all
      (loop $again
        (local.set $count (i32.atomic.load (i32.const 12)))
        (br_if $all (i32.eq (local.get $count) (i32.const 4)))
        (drop (memory.atomic.wait32 (i32.const 12) (local.get $count) (i64.const -1)))
        br $again))
    i32.const 8
    i32.load)
  (func (export "wasi_thread_start") (param $id i32) (param $arg i32)
    (local $left i32)
    (local.set $left (i32.const 100))
    (loop $next
      call $lock
      ;; two plain accesses, which the lock keeps together
      (i32.store (i32.const 8) (i32.add (i32.load (i32.const 8)) (i32.const 1)))
      call $unlock
      (local.set $left (i32.sub (local.get $left) (i32.const 1)))
      (br_if $next (local.get $left)))
    (drop (i32.atomic.rmw.add (i32.const 12) (i32.const 1)))
    (drop (memory.atomic.notify (i32.const 12) (i32.const -1)))))
