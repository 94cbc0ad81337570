;; Calls `twice` of `again`, which calls that of `m`.
(module
  (import "again" "twice" (func $twice (param i32) (result i32)))
  (func (export "f") (param i32) (result i32)
    local.get 0
    call $twice))
