(module
  ;; a byte for each number: 1 where a lesser prime divides it
  (memory (export "memory") 1)

  ;; the number of primes up to n
  (func (export "sieve") (param $n i32) (result i32)
    (local $i i32) (local $j i32) (local $count i32)
    loop $clear
      local.get $i
      i32.const 0
      i32.store8
      local.get $i
      i32.const 1
      i32.add
      local.tee $i
      local.get $n
      i32.le_u
      br_if $clear
    end
    i32.const 2
    local.set $i
    block $done
      loop $numbers
        local.get $i
        local.get $n
        i32.gt_u
        br_if $done
        local.get $i
        i32.load8_u
        i32.eqz
        if
          local.get $count
          i32.const 1
          i32.add
          local.set $count
          local.get $i
          local.get $i
          i32.mul
          local.set $j
          block $marked
            loop $mark
              local.get $j
              local.get $n
              i32.gt_u
              br_if $marked
              local.get $j
              i32.const 1
              i32.store8
              local.get $j
              local.get $i
              i32.add
              local.set $j
              br $mark
            end
          end
        end
        local.get $i
        i32.const 1
        i32.add
        local.set $i
        br $numbers
      end
    end
    local.get $count)

  ;; whether a number from 2 on was found to be a prime
  (func (export "is_prime") (param $n i32) (result i32)
    local.get $n
    i32.load8_u
    i32.eqz))
