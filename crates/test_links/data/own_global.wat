;; Has a global of its own, and adds it to what the library's function stored of its own one.
(module
  (import "m" "put" (func $put (param i32)))
  (import "m" "mem" (memory 1))
  (global $own (mut i32) (i32.const 1000))
  (func (export "f") (param i32) (result i32)
    local.get 0
    call $put
    i32.const 8
    i32.load
    global.get $own
    i32.add))
