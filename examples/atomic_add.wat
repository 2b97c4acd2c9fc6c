;; One atomic add: f adds 5 to the i32 at address 0 of a shared memory, and answers the value before, 0.
;; `./wathread run examples/atomic_add.wasm --invoke f --dump 8` shows both: the answer, and the bytes 05 00 ..
(module
  (memory 1 1 shared)
  (func (export "f") (result i32)
    i32.const 0
    i32.const 5
    i32.atomic.rmw.add))
