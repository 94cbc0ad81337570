;; A function that calls the function of a number that no function has.
(module
  (func (export "f") (param i32) (result i32)
    local.get 0
    call 7))
