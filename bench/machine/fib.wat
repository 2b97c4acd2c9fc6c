;; Fibonacci numbers, by two calls each.
(module
  (func $fib (param $n i32) (result i32)
    (if (result i32) (i32.lt_u (local.get $n) (i32.const 2))
      (then (local.get $n))
      (else (i32.add
        (call $fib (i32.sub (local.get $n) (i32.const 1)))
        (call $fib (i32.sub (local.get $n) (i32.const 2)))))))
  (func $run (export "run") (result i32)
    (call $fib (i32.const 30)))
  ;; The same so many times.
  (func (export "runs") (param $n i32)
    (loop $again
      (drop (call $run))
      (br_if $again (local.tee $n (i32.sub (local.get $n) (i32.const 1)))))))
