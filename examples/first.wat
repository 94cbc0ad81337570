(module
  (func (export "answer") (result i32)
    i32.const 40
    i32.const 2
    i32.add))
