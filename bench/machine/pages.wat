;; Writes to each of the 64 pages that a memory may have.
(module
  (memory 64 64)
  (func $touch (param $page i32) (result i32)
    (loop $next
      (i32.store (i32.mul (local.get $page) (i32.const 4096)) (i32.const 1))
      (br_if $next (i32.lt_u (local.tee $page (i32.add (local.get $page) (i32.const 1))) (i32.const 1024))))
    memory.size)
  (func (export "run") (result i32)
    (call $touch (i32.const 0))))
