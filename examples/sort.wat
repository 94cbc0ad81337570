(module
  ;; numbers of 32 bits from the address 256 on, and room for as many again behind 32768
  (memory (export "memory") 1)
  (global $seed (mut i32) (i32.const 1))

  (func $address (param $i i32) (result i32)
    local.get $i
    i32.const 2
    i32.shl)

  ;; writes n numbers that follow from a seed
  (func (export "fill") (param $n i32) (param $from i32)
    (local $i i32)
    local.get $from
    global.set $seed
    block $done
      loop $next
        local.get $i
        local.get $n
        i32.ge_s
        br_if $done
        global.get $seed
        i32.const 1103515245
        i32.mul
        i32.const 12345
        i32.add
        global.set $seed
        local.get $i
        call $address
        global.get $seed
        i32.store offset=256
        local.get $i
        i32.const 1
        i32.add
        local.set $i
        br $next
      end
    end)

  ;; sorts the numbers from the index $low to below $high, by merging two halves that are sorted
  (func $merge_sort (param $low i32) (param $high i32)
    (local $middle i32) (local $i i32) (local $j i32) (local $k i32)
    local.get $high
    local.get $low
    i32.sub
    i32.const 2
    i32.lt_s
    if
      return
    end
    local.get $low
    local.get $high
    i32.add
    i32.const 1
    i32.shr_u
    local.tee $middle
    local.set $j
    local.get $low
    local.get $middle
    call $merge_sort
    local.get $middle
    local.get $high
    call $merge_sort
    local.get $low
    local.tee $i
    local.set $k
    loop $merge
      ;; the lesser of the two next numbers, or the one that is left
      block $stored
        block $second
          local.get $i
          local.get $middle
          i32.ge_s
          br_if $second
          local.get $j
          local.get $high
          i32.lt_s
          if
            local.get $j
            call $address
            i32.load offset=256
            local.get $i
            call $address
            i32.load offset=256
            i32.lt_s
            br_if $second
          end
          local.get $k
          call $address
          local.get $i
          call $address
          i32.load offset=256
          i32.store offset=33024
          local.get $i
          i32.const 1
          i32.add
          local.set $i
          br $stored
        end
        local.get $k
        call $address
        local.get $j
        call $address
        i32.load offset=256
        i32.store offset=33024
        local.get $j
        i32.const 1
        i32.add
        local.set $j
      end
      local.get $k
      i32.const 1
      i32.add
      local.tee $k
      local.get $high
      i32.lt_s
      br_if $merge
    end
    loop $back
      local.get $low
      call $address
      local.get $low
      call $address
      i32.load offset=33024
      i32.store offset=256
      local.get $low
      i32.const 1
      i32.add
      local.tee $low
      local.get $high
      i32.lt_s
      br_if $back
    end)

  (func (export "sort") (param $n i32)
    i32.const 0
    local.get $n
    call $merge_sort)

  ;; the number of this index
  (func (export "at") (param $i i32) (result i32)
    local.get $i
    call $address
    i32.load offset=256))
