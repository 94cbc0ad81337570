(module
  (func (export "steps") (param $n i32) (result i32)
    (local $count i32)
    block $done
      loop $again
        local.get $n
        i32.const 1
        i32.eq
        br_if $done
        local.get $n
        i32.const 1
        i32.and
        if
          local.get $n
          i32.const 3
          i32.mul
          i32.const 1
          i32.add
          local.set $n
        else
          local.get $n
          i32.const 1
          i32.shr_u
          local.set $n
        end
        local.get $count
        i32.const 1
        i32.add
        local.set $count
        br $again
      end
    end
    local.get $count))
