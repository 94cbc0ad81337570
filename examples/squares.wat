(module
  ;; the squares of the numbers below 2,048, as words, which the start function writes
  (memory (export "memory") 1)
  (global $count (export "count") (mut i32) (i32.const 0))

  (func $fill
    loop $next
      global.get $count
      i32.const 4
      i32.mul
      global.get $count
      global.get $count
      i32.mul
      i32.store
      global.get $count
      i32.const 1
      i32.add
      global.set $count
      global.get $count
      i32.const 2048
      i32.lt_u
      br_if $next
    end)
  (start $fill)

  ;; the greatest number whose square is at most n, by halves of the table
  (func (export "root") (param $n i32) (result i32)
    (local $low i32) (local $high i32) (local $middle i32)
    i32.const 2047
    local.set $high
    loop $again
      local.get $low
      local.get $high
      i32.lt_u
      if
        local.get $low
        local.get $high
        i32.add
        i32.const 1
        i32.add
        i32.const 2
        i32.div_u
        local.tee $middle
        i32.const 4
        i32.mul
        i32.load
        local.get $n
        i32.le_u
        if
          local.get $middle
          local.set $low
        else
          local.get $middle
          i32.const 1
          i32.sub
          local.set $high
        end
        br $again
      end
    end
    local.get $low))
