;; A function that adds its argument to itself.
(module
  (func (export "twice") (param i32) (result i32)
    local.get 0
    local.get 0
    i32.add))
