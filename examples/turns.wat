(module
  ;; twenty numbers: how often they are still to be turned, and nineteen more
  (type $row (func (param i32 i32 i32 i32 i32 i32 i32 i32 i32 i32 i32 i32 i32 i32 i32 i32 i32 i32 i32 i32) (result i32)))
  (table 2 funcref)
  (elem (i32.const 0) $turn $weigh)

  ;; the sum of each number and its place
  (func $weigh (type $row)
    local.get 1
    local.get 2
    i32.const 2
    i32.mul
    i32.add
    local.get 3
    i32.const 3
    i32.mul
    i32.add
    local.get 4
    i32.const 4
    i32.mul
    i32.add
    local.get 5
    i32.const 5
    i32.mul
    i32.add
    local.get 6
    i32.const 6
    i32.mul
    i32.add
    local.get 7
    i32.const 7
    i32.mul
    i32.add
    local.get 8
    i32.const 8
    i32.mul
    i32.add
    local.get 9
    i32.const 9
    i32.mul
    i32.add
    local.get 10
    i32.const 10
    i32.mul
    i32.add
    local.get 11
    i32.const 11
    i32.mul
    i32.add
    local.get 12
    i32.const 12
    i32.mul
    i32.add
    local.get 13
    i32.const 13
    i32.mul
    i32.add
    local.get 14
    i32.const 14
    i32.mul
    i32.add
    local.get 15
    i32.const 15
    i32.mul
    i32.add
    local.get 16
    i32.const 16
    i32.mul
    i32.add
    local.get 17
    i32.const 17
    i32.mul
    i32.add
    local.get 18
    i32.const 18
    i32.mul
    i32.add
    local.get 19
    i32.const 19
    i32.mul
    i32.add)

  ;; the first number goes to the end, with the count added; at the count 0 all are weighed, through the table
  (func $turn (type $row)
    local.get 0
    i32.eqz
    if (result i32)
      local.get 0
      local.get 1
      local.get 2
      local.get 3
      local.get 4
      local.get 5
      local.get 6
      local.get 7
      local.get 8
      local.get 9
      local.get 10
      local.get 11
      local.get 12
      local.get 13
      local.get 14
      local.get 15
      local.get 16
      local.get 17
      local.get 18
      local.get 19
      i32.const 1
      call_indirect (type $row)
    else
      local.get 0
      i32.const 1
      i32.sub
      local.get 2
      local.get 3
      local.get 4
      local.get 5
      local.get 6
      local.get 7
      local.get 8
      local.get 9
      local.get 10
      local.get 11
      local.get 12
      local.get 13
      local.get 14
      local.get 15
      local.get 16
      local.get 17
      local.get 18
      local.get 19
      local.get 1
      local.get 0
      i32.add
      call $turn
      i32.const 1
      i32.add
    end)

  (func (export "turn") (param $n i32) (result i32)
    local.get $n
    i32.const 1
    i32.const 4
    i32.const 9
    i32.const 16
    i32.const 25
    i32.const 36
    i32.const 49
    i32.const 64
    i32.const 81
    i32.const 100
    i32.const 121
    i32.const 144
    i32.const 169
    i32.const 196
    i32.const 225
    i32.const 256
    i32.const 289
    i32.const 324
    i32.const 361
    call $turn))
