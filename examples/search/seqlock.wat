;; A sequence lock whose reader looks at the sequence number (at 0) before it reads, and not again behind it: it may see one
;; of the two numbers at 4 and 8 before the writer's change, and the other one behind it. 0 is the answer where they are alike.
;; `./wathread search examples/search/seqlock.wasm --invoke f --all`
(module
  (import "wasi" "thread-spawn" (func $spawn (param i32) (result i32)))
  (memory 1 1 shared)
  (func (export "f") (result i32)
    (drop (call $spawn (i32.const 0)))
    (loop $odd
      (br_if $odd (i32.and (i32.atomic.load (i32.const 0)) (i32.const 1))))
    (i32.sub (i32.load (i32.const 4)) (i32.load (i32.const 8))))
  (func (export "wasi_thread_start") (param $id i32) (param $arg i32)
    (drop (i32.atomic.rmw.add (i32.const 0) (i32.const 1)))
    (i32.store (i32.const 4) (i32.const 7))
    (i32.store (i32.const 8) (i32.const 7))
    (drop (i32.atomic.rmw.add (i32.const 0) (i32.const 1)))))
