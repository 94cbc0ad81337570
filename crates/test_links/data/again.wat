;; A library that imports of another one: its function calls `twice` for what `twice` gave.
(module
  (import "m" "twice" (func $twice (param i32) (result i32)))
  (func (export "twice") (param i32) (result i32)
    local.get 0
    call $twice
    call $twice))
