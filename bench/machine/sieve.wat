;; The sieve of Eratosthenes below 65,536, four times over: fewer than 1,000,000 accesses, so that a log takes them.
(module
  (memory 1 1)
  (func $sieve (param $times i32) (result i32)
    (local $i i32) (local $j i32) (local $count i32)
    (loop $again
      (local.set $i (i32.const 0))
      (loop $clear
        (i64.store (local.get $i) (i64.const 0))
        (br_if $clear (i32.lt_u (local.tee $i (i32.add (local.get $i) (i32.const 8))) (i32.const 65536))))
      (local.set $count (i32.const 0))
      (local.set $i (i32.const 2))
      (loop $next
        (block $composite
          (br_if $composite (i32.load8_u (local.get $i)))
          (local.set $count (i32.add (local.get $count) (i32.const 1)))
          (local.set $j (i32.add (local.get $i) (local.get $i)))
          (loop $mark
            (br_if $composite (i32.ge_u (local.get $j) (i32.const 65536)))
            (i32.store8 (local.get $j) (i32.const 1))
            (local.set $j (i32.add (local.get $j) (local.get $i)))
            br $mark))
        (br_if $next (i32.lt_u (local.tee $i (i32.add (local.get $i) (i32.const 1))) (i32.const 65536))))
      (br_if $again (local.tee $times (i32.sub (local.get $times) (i32.const 1)))))
    local.get $count)
  (func $run (export "run") (result i32)
    (call $sieve (i32.const 4)))
  ;; The same so many times.
  (func (export "runs") (param $n i32)
    (loop $again
      (drop (call $run))
      (br_if $again (local.tee $n (i32.sub (local.get $n) (i32.const 1)))))))
