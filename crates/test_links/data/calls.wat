;; Calls `twice` of `m`, whose type stands at another place here than there.
(module
  (type (func (param i64)))
  (type $same (func (param i32) (result i32)))
  (import "m" "twice" (func $twice (type $same)))
  (func (param i64))
  (func (export "f") (param i32) (result i32)
    local.get 0
    call $twice))
