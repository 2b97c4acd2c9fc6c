;; Adds 1 to a word of a shared memory, 900,000 times; the record takes no more entries.
(module
  (memory 1 1 shared)
  (func $adds (param $n i32) (result i32)
    (loop $next
      (drop (i32.atomic.rmw.add (i32.const 8) (i32.const 1)))
      (br_if $next (local.tee $n (i32.sub (local.get $n) (i32.const 1)))))
    (i32.const 0))
  (func $run (export "run") (result i32)
    (call $adds (i32.const 900000)))
  ;; The same so many times.
  (func (export "runs") (param $n i32)
    (loop $again
      (drop (call $run))
      (br_if $again (local.tee $n (i32.sub (local.get $n) (i32.const 1)))))))
