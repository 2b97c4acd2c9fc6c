;; The factorial, by a loop. `./wathread run examples/fac.wasm --invoke fac 20` prints i64:2432902008176640000.
(module
  (func (export "fac") (param $n i64) (result i64)
    (local $product i64)
    i64.const 1
    local.set $product
    (block $done
      (loop $next
        local.get $n
        i64.eqz
        br_if $done
        local.get $product
        local.get $n
        i64.mul
        local.set $product
        local.get $n
        i64.const 1
        i64.sub
        local.set $n
        br $next))
    local.get $product))
