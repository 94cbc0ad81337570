(module
  (type $operation (func (param i32 i32) (result i32)))
  (table 8 funcref)
  (elem (i32.const 1) $add $subtract $larger $power $once)
  (func $add (type $operation)
    local.get 0
    local.get 1
    i32.add)
  (func $subtract (type $operation)
    local.get 0
    local.get 1
    i32.sub)
  (func $larger (type $operation)
    local.get 0
    local.get 1
    local.get 0
    local.get 1
    i32.gt_s
    select)
  ;; The first number to the power of the second one, by the table: a step is a call of this function with one less.
  (func $power (type $operation)
    local.get 1
    i32.eqz
    if (result i32)
      i32.const 1
    else
      local.get 0
      local.get 0
      local.get 1
      i32.const 1
      i32.sub
      i32.const 4
      call_indirect (type $operation)
      i32.mul
    end)
  (func $once (param i32) (result i32)
    local.get 0)
  ;; The operation of this number on two numbers: the element 0 of the table is empty, 5 has another type, 6 and 7 are
  ;; empty, and there is no further one.
  (func (export "apply") (param $number i32) (param $first i32) (param $second i32) (result i32)
    local.get $first
    local.get $second
    local.get $number
    call_indirect (type $operation))
  ;; What the operations 1 to 3 make of the numbers from 1 to n, one after the other.
  (func (export "fold") (param $number i32) (param $n i32) (result i32)
    (local $sum i32) (local $next i32)
    loop
      local.get $sum
      local.get $next
      i32.const 1
      i32.add
      local.tee $next
      local.get $number
      call_indirect (type $operation)
      local.set $sum
      local.get $next
      local.get $n
      i32.lt_s
      br_if 0
    end
    local.get $sum))
