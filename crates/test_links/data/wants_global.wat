;; Wants a global.
(module
  (import "m" "twice" (func (param i32) (result i32)))
  (import "m" "g" (global i32))
  (func (export "f") (param i32) (result i32)
    local.get 0))
