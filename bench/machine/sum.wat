;; Adds the numbers below 2,000,000: twelve instructions a round.
(module
  (func $sum (param $n i32) (result i64)
    (local $i i32) (local $sum i64)
    (loop $next
      (local.set $sum (i64.add (local.get $sum) (i64.extend_i32_u (local.get $i))))
      (br_if $next (i32.lt_u (local.tee $i (i32.add (local.get $i) (i32.const 1))) (local.get $n))))
    local.get $sum)
  (func $run (export "run") (result i64)
    (call $sum (i32.const 2000000)))
  ;; The same so many times.
  (func (export "runs") (param $n i32)
    (loop $again
      (drop (call $run))
      (br_if $again (local.tee $n (i32.sub (local.get $n) (i32.const 1)))))))
