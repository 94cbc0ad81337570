;; Wants a function where the library has a memory.
(module
  (import "m" "mem" (func (param i32) (result i32)))
  (func (export "f") (param i32) (result i32)
    local.get 0))
