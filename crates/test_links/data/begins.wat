;; Has a start function, which calls the library's function.
(module
  (import "m" "put" (func $put (param i32)))
  (import "m" "mem" (memory 1))
  (func $begin
    i32.const 10
    call $put)
  (start $begin)
  (func (export "f") (param i32) (result i32)
    local.get 0
    call $put
    i32.const 8
    i32.load))
