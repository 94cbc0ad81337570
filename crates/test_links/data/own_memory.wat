;; Has a memory of its own in place of an import.
(module
  (import "m" "put" (func $put (param i32)))
  (memory 1)
  (func (export "f") (param i32) (result i32)
    local.get 0
    call $put
    i32.const 8
    i32.load))
