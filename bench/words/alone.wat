;; Stores and loads a word of a shared memory in turn, by one thread, so many times four pairs. It answers the word.
(module
  (import "env" "memory" (memory 1 1 shared))
  (func (export "run") (param $times i32) (result i64)
    (block $done
      (br_if $done (i32.eqz (local.get $times)))
      (loop $next
        (i64.atomic.store (i32.const 1024) (i64.const 1))
        (drop (i64.atomic.load (i32.const 1024)))
        (i64.atomic.store (i32.const 1024) (i64.const 2))
        (drop (i64.atomic.load (i32.const 1024)))
        (i64.atomic.store (i32.const 1024) (i64.const 3))
        (drop (i64.atomic.load (i32.const 1024)))
        (i64.atomic.store (i32.const 1024) (i64.const 4))
        (drop (i64.atomic.load (i32.const 1024)))
        (br_if $next (local.tee $times (i32.sub (local.get $times) (i32.const 1))))))
    (i64.atomic.load (i32.const 1024))))
