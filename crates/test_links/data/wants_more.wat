;; Wants a memory of two pages at least.
(module
  (import "m" "mem" (memory 2))
  (func (export "f") (param i32) (result i32)
    local.get 0))
