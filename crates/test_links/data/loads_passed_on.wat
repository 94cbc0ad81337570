;; Loads what the library's function stored, and calls by the table: all three imported of `r`, which has them of `m`.
(module
  (type $one (func (param i32) (result i32)))
  (import "r" "put" (func $put (param i32)))
  (import "r" "mem" (memory 1))
  (import "r" "tab" (table 2 funcref))
  (func (export "f") (param i32) (result i32)
    local.get 0
    call $put
    i32.const 8
    i32.load
    i32.const 1
    call_indirect (type $one)))
