;; Calls by the library's table, in which it fills two places itself.
(module
  (type $one (func (param i32) (result i32)))
  (import "m" "tab" (table 4 funcref))
  (elem (i32.const 2) $number $next)
  (func $number (result i32)
    i32.const 9)
  (func $next (param i32) (result i32)
    local.get 0
    i32.const 1
    i32.add)
  (func (export "f") (param i32) (result i32)
    i32.const 14
    local.get 0
    call_indirect (type $one)))
