(module
  (func (export "triple") (param i32) (result i32)
    local.get 0
    i32.const 3
    i32.mul
    i32.const 1
    i32.add))
