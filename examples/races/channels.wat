;; What lets one thread know of another, beside bytes: the number of pages, a list of waiters, the numbers of threads, a
;; timeout. Each function starts threads by the arguments beside it; where it answers, it is by who reads last.
(module
  (import "wasi" "thread-spawn" (func $spawn (param i32) (result i32)))
  (memory 1 3 shared)
  ;; A question for the size sees the growth, and so the store before it.
  (func (export "size") (result i32)
    (drop (call $spawn (i32.const 1)))
    (if (result i32) (i32.eq (memory.size) (i32.const 2))
      (then (i32.load (i32.const 64)))
      (else (i32.const -1))))
  (func $store_and_grow
    (i32.store (i32.const 64) (i32.const 1))
    (drop (memory.grow (i32.const 1))))
  ;; A bounds check sees it too, but nothing orders it: it races with the growth.
  (func (export "bounds") (result i32)
    (drop (call $spawn (i32.const 1)))
    (drop (i32.load (i32.const 65536)))
    (i32.load (i32.const 64)))
  ;; The same behind a flag.
  (func (export "bounds_behind_flag") (result i32)
    (drop (call $spawn (i32.const 2)))
    (if (result i32) (i32.atomic.load (i32.const 0))
      (then
        (drop (i32.load (i32.const 65536)))
        (i32.load (i32.const 64)))
      (else (i32.const -1))))
  (func $store_grow_and_flag
    call $store_and_grow
    (i32.atomic.store (i32.const 0) (i32.const 1)))
  ;; Whose thread gets the number 3 knows that another one got 2.
  (func (export "numbers") (result i32)
    (drop (call $spawn (i32.const 3)))
    (if (result i32) (i32.eq (call $spawn (i32.const 0)) (i32.const 3))
      (then (i32.load (i32.const 64)))
      (else (i32.const -1))))
  (func $store_and_spawn
    (i32.store (i32.const 64) (i32.const 1))
    (drop (call $spawn (i32.const 0))))
  ;; Who wakes one knows that it waits.
  (func (export "counts") (result i32)
    (drop (call $spawn (i32.const 4)))
    (if (result i32) (memory.atomic.notify (i32.const 0) (i32.const 1))
      (then (i32.load (i32.const 64)))
      (else (i32.const -1))))
  (func $store_and_wait
    (i32.store (i32.const 64) (i32.const 1))
    (drop (memory.atomic.wait32 (i32.const 0) (i32.const 0) (i64.const 1))))
  ;; The same at another address: nothing is known there.
  (func (export "other_counts") (result i32)
    (drop (call $spawn (i32.const 4)))
    (drop (memory.atomic.notify (i32.const 8) (i32.const 1)))
    (i32.load (i32.const 64)))
  ;; A timeout as a sleep: the store may be over, and nothing says so.
  (func (export "sleep") (result i32)
    (drop (call $spawn (i32.const 5)))
    (drop (memory.atomic.wait32 (i32.const 0) (i32.const 0) (i64.const 1000)))
    (i32.load (i32.const 64)))
  (func $store
    (i32.store (i32.const 64) (i32.const 1)))
  ;; The same, and then a flag.
  (func (export "sleep_and_flag") (result i32)
    (drop (call $spawn (i32.const 6)))
    (drop (memory.atomic.wait32 (i32.const 0) (i32.const 0) (i64.const 1000)))
    (if (result i32) (i32.atomic.load (i32.const 4))
      (then (i32.load (i32.const 64)))
      (else (i32.const -1))))
  (func $store_and_flag
    call $store
    (i32.atomic.store (i32.const 4) (i32.const 1)))
  ;; An exchange that stored is written over by a store, which alone is seen.
  (func (export "written_over") (result i32)
    (drop (call $spawn (i32.const 7)))
    (drop (call $spawn (i32.const 8)))
    (if (result i32) (i32.atomic.load (i32.const 4))
      (then (i32.load (i32.const 0)))
      (else (i32.const -1))))
  (func $exchange
    (drop (i32.atomic.rmw.cmpxchg (i32.const 0) (i32.const 0) (i32.const 1))))
  (func $write_over
    (i32.atomic.store (i32.const 0) (i32.const 2))
    (i32.atomic.store (i32.const 4) (i32.const 1)))
  (func $nothing)
  (table funcref (elem $nothing $store_and_grow $store_grow_and_flag $store_and_spawn $store_and_wait $store
    $store_and_flag $exchange $write_over))
  (type $role (func))
  (func (export "wasi_thread_start") (param $id i32) (param $role i32)
    (call_indirect (type $role) (local.get $role))))
