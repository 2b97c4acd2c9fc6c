;; Adds 1 to a word of a shared memory, so many times, by one thread. It answers the word.
(module
  (import "env" "memory" (memory 1 1 shared))
  (func (export "run") (param $times i32) (result i32)
    (block $done
      (br_if $done (i32.eqz (local.get $times)))
      (loop $next
        (drop (i32.atomic.rmw.add (i32.const 1024) (i32.const 1)))
        (br_if $next (local.tee $times (i32.sub (local.get $times) (i32.const 1))))))
    (i32.atomic.load (i32.const 1024))))
