;; A ticket lock that spins: who wants it draws a number at 0, and has it when that number is served at 4. So many threads
;; each add 1 to the plain number at 8, so many times. The first sleeps until all others are done, of which 12 has the
;; count, and answers the number: all increments, if none was lost.
;; `./wathread search examples/search/tickets.wasm --invoke f --all 3 1`
(module
  (import "wasi" "thread-spawn" (func $spawn (param i32) (result i32)))
  (memory 1 1 shared)
  (func $work (param $rounds i32)
    (local $ticket i32)
    (loop $next
      (local.set $ticket (i32.atomic.rmw.add (i32.const 0) (i32.const 1)))
      (loop $again
        (br_if $again (i32.ne (i32.atomic.load (i32.const 4)) (local.get $ticket))))
      (i32.store (i32.const 8) (i32.add (i32.load (i32.const 8)) (i32.const 1)))
      (drop (i32.atomic.rmw.add (i32.const 4) (i32.const 1)))
      (local.set $rounds (i32.sub (local.get $rounds) (i32.const 1)))
      (br_if $next (local.get $rounds))))
  (func (export "f") (param $threads i32) (param $rounds i32) (result i32)
    (local $started i32) (local $done i32)
    (loop $more
      (local.set $started (i32.add (local.get $started) (i32.const 1)))
      (if (i32.lt_u (local.get $started) (local.get $threads))
        (then
          (drop (call $spawn (local.get $rounds)))
          br $more)))
    (call $work (local.get $rounds))
    (loop $join
      (local.set $done (i32.atomic.load (i32.const 12)))
      (if (i32.lt_u (i32.add (local.get $done) (i32.const 1)) (local.get $started))
        (then
          (drop (memory.atomic.wait32 (i32.const 12) (local.get $done) (i64.const -1)))
          br $join)))
    (i32.load (i32.const 8)))
  (func (export "wasi_thread_start") (param $id i32) (param $rounds i32)
    (call $work (local.get $rounds))
    (drop (i32.atomic.rmw.add (i32.const 12) (i32.const 1)))
    (drop (memory.atomic.notify (i32.const 12) (i32.const 1)))))
