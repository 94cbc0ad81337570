(module
  ;; What a machine of 40 operations does with a number: each has a block of its own, to which a br_table leads.
  (func $step (export "step") (param $operation i32) (param $number i32) (result i32)
    block
    block
    block
    block
    block
    block
    block
    block
    block
    block
    block
    block
    block
    block
    block
    block
    block
    block
    block
    block
    block
    block
    block
    block
    block
    block
    block
    block
    block
    block
    block
    block
    block
    block
    block
    block
    block
    block
    block
    block
    block
    local.get $operation
    br_table 0 1 2 3 4 5 6 7 8 9 10 11 12 13 14 15 16 17 18 19 20 21 22 23 24 25 26 27 28 29 30 31 32 33 34 35 36 37 38 39 40
    end
    local.get $number
    i32.const 3
    i32.add
    return
    end
    local.get $number
    i32.const 10
    i32.sub
    return
    end
    local.get $number
    i32.const 17
    i32.xor
    return
    end
    local.get $number
    i32.const 24
    i32.or
    return
    end
    local.get $number
    i32.const 31
    i32.and
    return
    end
    local.get $number
    i32.const 38
    i32.mul
    return
    end
    local.get $number
    i32.const 45
    i32.shl
    return
    end
    local.get $number
    i32.const 52
    i32.rotl
    return
    end
    local.get $number
    i32.const 59
    i32.add
    return
    end
    local.get $number
    i32.const 66
    i32.sub
    return
    end
    local.get $number
    i32.const 73
    i32.xor
    return
    end
    local.get $number
    i32.const 80
    i32.or
    return
    end
    local.get $number
    i32.const 87
    i32.and
    return
    end
    local.get $number
    i32.const 94
    i32.mul
    return
    end
    local.get $number
    i32.const 101
    i32.shl
    return
    end
    local.get $number
    i32.const 108
    i32.rotl
    return
    end
    local.get $number
    i32.const 115
    i32.add
    return
    end
    local.get $number
    i32.const 122
    i32.sub
    return
    end
    local.get $number
    i32.const 129
    i32.xor
    return
    end
    local.get $number
    i32.const 136
    i32.or
    return
    end
    local.get $number
    i32.const 143
    i32.and
    return
    end
    local.get $number
    i32.const 150
    i32.mul
    return
    end
    local.get $number
    i32.const 157
    i32.shl
    return
    end
    local.get $number
    i32.const 164
    i32.rotl
    return
    end
    local.get $number
    i32.const 171
    i32.add
    return
    end
    local.get $number
    i32.const 178
    i32.sub
    return
    end
    local.get $number
    i32.const 185
    i32.xor
    return
    end
    local.get $number
    i32.const 192
    i32.or
    return
    end
    local.get $number
    i32.const 199
    i32.and
    return
    end
    local.get $number
    i32.const 206
    i32.mul
    return
    end
    local.get $number
    i32.const 213
    i32.shl
    return
    end
    local.get $number
    i32.const 220
    i32.rotl
    return
    end
    local.get $number
    i32.const 227
    i32.add
    return
    end
    local.get $number
    i32.const 234
    i32.sub
    return
    end
    local.get $number
    i32.const 241
    i32.xor
    return
    end
    local.get $number
    i32.const 248
    i32.or
    return
    end
    local.get $number
    i32.const 255
    i32.and
    return
    end
    local.get $number
    i32.const 262
    i32.mul
    return
    end
    local.get $number
    i32.const 269
    i32.shl
    return
    end
    local.get $number
    i32.const 276
    i32.rotl
    return
    end
    i32.const -1)
  ;; All operations from the first to the last, one after the other.
  (func (export "all") (param $number i32) (result i32)
    (local $operation i32)
    loop
      local.get $operation
      local.get $number
      call $step
      local.set $number
      local.get $operation
      i32.const 1
      i32.add
      local.tee $operation
      i32.const 40
      i32.lt_s
      br_if 0
    end
    local.get $number)
  ;; How many blocks a branch with a value has left, of the 20 round it; each adds one.
  (func (export "depth") (param $label i32) (result i32)
    block (result i32)
    block (result i32)
    block (result i32)
    block (result i32)
    block (result i32)
    block (result i32)
    block (result i32)
    block (result i32)
    block (result i32)
    block (result i32)
    block (result i32)
    block (result i32)
    block (result i32)
    block (result i32)
    block (result i32)
    block (result i32)
    block (result i32)
    block (result i32)
    block (result i32)
    block (result i32)
    i32.const 100
    local.get $label
    br_table 0 1 2 3 4 5 6 7 8 9 10 11 12 13 14 15 16 17 18 19 20
    end
    i32.const 1
    i32.add
    end
    i32.const 1
    i32.add
    end
    i32.const 1
    i32.add
    end
    i32.const 1
    i32.add
    end
    i32.const 1
    i32.add
    end
    i32.const 1
    i32.add
    end
    i32.const 1
    i32.add
    end
    i32.const 1
    i32.add
    end
    i32.const 1
    i32.add
    end
    i32.const 1
    i32.add
    end
    i32.const 1
    i32.add
    end
    i32.const 1
    i32.add
    end
    i32.const 1
    i32.add
    end
    i32.const 1
    i32.add
    end
    i32.const 1
    i32.add
    end
    i32.const 1
    i32.add
    end
    i32.const 1
    i32.add
    end
    i32.const 1
    i32.add
    end
    i32.const 1
    i32.add
    end
    i32.const 1
    i32.add))
