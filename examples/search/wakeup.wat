;; A lost wake-up: the waiter looks at the flag at 0, and then sleeps on another word, at 4, which nobody changes. Where the
;; other thread sets the flag and notifies in between, the waiter sleeps for good.
;; `./wathread search examples/search/wakeup.wasm --invoke f --all`
(module
  (import "wasi" "thread-spawn" (func $spawn (param i32) (result i32)))
  (memory 1 1 shared)
  (func (export "f") (result i32)
    (drop (call $spawn (i32.const 0)))
    (if (i32.eqz (i32.atomic.load (i32.const 0)))
      ;; here the other thread may come between
      (then (drop (memory.atomic.wait32 (i32.const 4) (i32.const 0) (i64.const -1)))))
    (i32.atomic.load (i32.const 0)))
  (func (export "wasi_thread_start") (param $id i32) (param $arg i32)
    (i32.atomic.store (i32.const 0) (i32.const 1))
    (drop (memory.atomic.notify (i32.const 4) (i32.const -1)))))
