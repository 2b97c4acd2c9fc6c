;; The 64-bit FNV-1a hash of the first bytes of a text that stands in the memory.
;; `./wathread run examples/hash.wasm --invoke hash 9` prints the hash of `wathread!`, i64:13763104247918553184.
(module
  (memory 1 1)
  (data (i32.const 0) "wathread!")
  (func (export "hash") (param $length i32) (result i64)
    (local $hash i64) (local $i i32)
    i64.const 0xcbf29ce484222325
    local.set $hash
    (block $done
      (loop $next
        local.get $i
        local.get $length
        i32.ge_u
        br_if $done
        local.get $hash
        local.get $i
        i64.load8_u
        i64.xor
        i64.const 0x100000001b3
        i64.mul
        local.set $hash
        local.get $i
        i32.const 1
        i32.add
        local.set $i
        br $next))
    local.get $hash))
