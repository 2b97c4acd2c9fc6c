;; Starts so many threads, at most 15, that end at once.
(module
  (import "env" "memory" (memory 1 1 shared))
  (import "wasi" "thread-spawn" (func $spawn (param i32) (result i32)))
  (func (export "run") (param $threads i32) (result i32)
    (local $started i32)
    (block $done
      (br_if $done (i32.eqz (local.get $threads)))
      (loop $next
        (if (i32.gt_s (call $spawn (i32.const 0)) (i32.const 0))
          (then (local.set $started (i32.add (local.get $started) (i32.const 1)))))
        (br_if $next (local.tee $threads (i32.sub (local.get $threads) (i32.const 1))))))
    local.get $started)
  (func (export "wasi_thread_start") (param $id i32) (param $arg i32)))
