;; How many primes are below a number of at most 65,536, by the sieve of Eratosthenes: a byte a number, set where it is
;; composite. `./wathread run examples/sieve.wasm --invoke primes 1000` prints i32:168.
(module
  (memory 1 1)
  (func (export "primes") (param $below i32) (result i32)
    (local $i i32) (local $j i32) (local $count i32)
    i32.const 2
    local.set $i
    (block $done
      (loop $next
        local.get $i
        local.get $below
        i32.ge_u
        br_if $done
        (block $composite
          local.get $i
          i32.load8_u
          br_if $composite
          local.get $count
          i32.const 1
          i32.add
          local.set $count
          local.get $i
          local.get $i
          i32.add
          local.set $j
          (loop $mark
            local.get $j
            local.get $below
            i32.ge_u
            br_if $composite
            local.get $j
            i32.const 1
            i32.store8
            local.get $j
            local.get $i
            i32.add
            local.set $j
            br $mark))
        local.get $i
        i32.const 1
        i32.add
        local.set $i
        br $next))
    local.get $count))
